//! Plain reads of all that a store's numbers need: the tables, the result buffer and the used words of the log.
use sogvect::Space;

/// The sum of all 32-bit numbers, modulo 2^32.
#[inline(never)]
pub fn read(space: &Space, used: usize) -> u32 {
    let mut sums = [0u32; 16];
    add(&mut sums, &space.tables);
    add(&mut sums, &space.out);
    for part in space.log[..8 * used].as_chunks::<64>().0 {
        for (sum, n) in sums.iter_mut().zip(part.as_chunks::<4>().0) {
            *sum = sum.wrapping_add(u32::from_ne_bytes(*n));
        }
    }
    sums.iter().copied().fold(0, u32::wrapping_add)
}

/// Adds up numbers, sixteen at a time: a shorter loop depends on where it lies in the program.
fn add(sums: &mut [u32; 16], numbers: &[u32]) {
    for part in numbers.as_chunks::<16>().0 {
        for (sum, n) in sums.iter_mut().zip(part) {
            *sum = sum.wrapping_add(*n);
        }
    }
}

/// The sum of all numbers and of the log's 8-byte words, in 64 bits.
#[inline(never)]
pub fn sum(space: &Space, used: usize) -> u64 {
    let words = space.log[..8 * used].as_chunks::<8>().0.iter().map(|w| u64::from_ne_bytes(*w));
    words.fold(total(&space.tables) + total(&space.out), u64::wrapping_add)
}

fn total(numbers: &[u32]) -> u64 {
    let mut sums = [0u64; 16];
    for part in numbers.as_chunks::<16>().0 {
        for (sum, n) in sums.iter_mut().zip(part) {
            *sum += *n as u64;
        }
    }
    sums.iter().sum()
}
