//! Lines of a script, one pass over the text. A line of up to 15 bytes is looked at whole, in one register; a longer one number by number.
use calls::Naming;
use std::arch::x86_64::*;

/// The most bytes of a line. Only one with a name can have more and be a call but for that.
const LINE: usize = 80;

/// Eight bytes from a position on, the first in the lowest byte; 0 beyond the end.
#[inline(always)]
fn eight(text: &[u8], at: usize) -> u64 {
    match text.get(at..).and_then(|rest| rest.first_chunk()) {
        Some(part) => u64::from_le_bytes(*part),
        None => last_eight(text, at),
    }
}

#[cold]
fn last_eight(text: &[u8], at: usize) -> u64 {
    let rest = text.get(at..).unwrap_or(&[]);
    rest.iter().take(8).rev().fold(0, |word, &b| word << 8 | b as u64)
}

/// The number that the first digits of eight bytes are; `bits` is eight times how many there are, 8 to 56.
#[inline(always)]
fn value(word: u64, bits: u32) -> u32 {
    let one = (word ^ 0x3030_3030_3030_3030) << (64 - bits);
    let two = (one * 10 + (one >> 8)) & 0x00FF_00FF_00FF_00FF;
    let four = (two * 100 + (two >> 16)) & 0x0000_FFFF_0000_FFFF;
    (four * 10_000 + (four >> 32)) as u32
}

/// A short line: a bit for each space in it, and how long it is. All other bytes but the first are digits.
#[derive(Clone, Copy)]
struct Short {
    spaces: u32,
    len: u32,
}

#[inline(always)]
fn short(text: &[u8], at: usize) -> Option<Short> {
    let part = text.get(at..at + 24)?;
    let (low, high) = (eight(part, 0), eight(part, 8));
    // SAFETY: every x86-64 processor has SSE2.
    let (digits, spaces, ends) = unsafe {
        let bytes = _mm_set_epi64x(high as i64, low as i64);
        let values = _mm_sub_epi8(bytes, _mm_set1_epi8(b'0' as i8));
        let digits = _mm_cmpeq_epi8(_mm_min_epu8(values, _mm_set1_epi8(9)), values);
        let spaces = _mm_cmpeq_epi8(bytes, _mm_set1_epi8(b' ' as i8));
        let ends = _mm_cmpeq_epi8(bytes, _mm_set1_epi8(b'\n' as i8));
        (_mm_movemask_epi8(digits) as u32, _mm_movemask_epi8(spaces) as u32, _mm_movemask_epi8(ends) as u32)
    };
    let line = ends.wrapping_sub(1) & !ends;
    if ends == 0 || (digits | spaces | 1) & line != line {
        return None;
    }
    Some(Short { spaces: spaces & line & !1, len: ends.trailing_zeros() })
}

/// The N numbers of a short line.
#[inline(always)]
fn short_numbers<const N: usize>(text: &[u8], at: usize) -> Option<([u32; N], usize)> {
    let Short { mut spaces, len } = short(text, at)?;
    let mut n = [0; N];
    let mut from = spaces.trailing_zeros();
    if from != 1 {
        return None;
    }
    for (i, x) in n.iter_mut().enumerate() {
        spaces &= spaces.wrapping_sub(1);
        let last = i + 1 == N;
        if last != (spaces == 0) {
            return None;
        }
        let to = if last { len } else { spaces.trailing_zeros() };
        let bits = 8 * (to - from - 1);
        let word = eight(text, at + from as usize + 1);
        let zero_first = bits > 8 && word & 255 == b'0' as u64;
        if bits == 0 || bits > 56 || zero_first {
            return None;
        }
        *x = value(word, bits);
        from = to;
    }
    Some((n, at + len as usize))
}

/// A space and a number of 1 to 7 digits without leading zeros: the number, and the position after it.
#[inline(always)]
fn number(text: &[u8], at: usize) -> Option<(u32, usize)> {
    let word = eight(text, at);
    let values = (word >> 8) ^ 0x30_3030_3030_3030;
    let others = (values | (values + 0x76_7676_7676_7676)) & 0x80_8080_8080_8080 | 1 << 63;
    let bits = others.trailing_zeros() & 56;
    let zero_first = bits > 8 && values & 255 == 0;
    if word & 255 != b' ' as u64 || bits == 0 || zero_first {
        return None;
    }
    Some((value(word >> 8, bits), at + 1 + bits as usize / 8))
}

#[inline(always)]
fn ends(text: &[u8], at: usize) -> bool {
    text.get(at).is_none_or(|&b| b == b'\n')
}

/// The N numbers from a position on, and where the line ends.
pub fn numbers<const N: usize>(text: &[u8], at: usize) -> Option<([u32; N], usize)> {
    let mut n = [0; N];
    let mut at = at;
    for x in &mut n {
        (*x, at) = number(text, at)?;
    }
    ends(text, at).then_some((n, at))
}

#[cold]
fn long_numbers<const N: usize>(text: &[u8], at: usize) -> Option<([u32; N], usize)> {
    numbers(text, at + 1)
}

/// The N numbers after the letter at a position, and where the line ends.
#[inline(always)]
pub fn after_letter<const N: usize>(text: &[u8], at: usize) -> Option<([u32; N], usize)> {
    if N == 0 {
        return numbers(text, at + 1);
    }
    match short_numbers(text, at) {
        None => long_numbers(text, at),
        found => found,
    }
}

/// The call with a name at a position: what it does, the name, and where the line ends.
pub fn naming(text: &[u8], at: usize) -> Option<(Naming, &[u8], usize)> {
    let letter = text[at];
    let rest = text.get(at + 1..)?.strip_prefix(b" ")?;
    let name = &rest[..rest.iter().position(|&b| b == b' ' || b == b'\n').unwrap_or(rest.len())];
    let after = at + 2 + name.len();
    let (naming, end) = match letter {
        b'N' => numbers(text, after).map(|([r], end)| (Naming::Attach(r), end))?,
        b'U' => numbers::<0>(text, after).map(|(_, end)| (Naming::Detach, end))?,
        b'M' => numbers::<0>(text, after).map(|(_, end)| (Naming::Resolve, end))?,
        _ => return None,
    };
    (!name.is_empty() && end - at <= LINE).then_some((naming, name, end))
}

/// Where the line at a position ends.
pub fn line_end(text: &[u8], at: usize) -> usize {
    text[at..].iter().position(|&b| b == b'\n').map_or(text.len(), |n| at + n)
}
