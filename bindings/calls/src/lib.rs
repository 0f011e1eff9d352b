//! The calls of a store, as they are asked: the proved library's wrapper, the tests and the benchmarks name them by one type, [`Call`] where no name is
//! asked for, else [`Command`].
#![warn(missing_docs)]

use std::fmt;
use std::str::FromStr;

/// A type of calls and all that goes by letters and numbers, from one table with a row for each call: its letter, its name, its numbers.
macro_rules! calls {
    ($(#[$about:meta])* $calls:ident; $($(#[$doc:meta])* $letter:literal $name:ident $(($($number:ident: $type:ty),+))?;)*) => {
        $(#[$about])*
        #[derive(Clone, Copy, Debug, PartialEq, Eq, Hash)]
        pub enum $calls {
            $($(#[$doc])* $name $(($($type),+))?,)*
        }

        impl $calls {
            /// The letters that a script has for the calls.
            pub const LETTERS: [u8; [$($letter),*].len()] = [$($letter),*];

            /// The call of a letter; of the three numbers those that it does not take are passed over.
            pub const fn of(letter: u8, numbers: [u32; 3]) -> Option<$calls> {
                match (letter, numbers) {
                    $(($letter, [$($($number,)+)? ..]) => Some($calls::$name $(($($number),+))?),)*
                    _ => None,
                }
            }

            const fn spelled(self) -> Spelled {
                match self {
                    $($calls::$name $(($($number),+))? => Spelled::new($letter, &[$($($number),+)?]),)*
                }
            }

            /// The letter that a script has for the call.
            pub const fn letter(self) -> u8 {
                self.spelled().letter
            }

            /// How many numbers a script has for the call.
            pub const fn takes(self) -> usize {
                self.spelled().takes
            }

            /// The call's numbers; of the three those that it does not take are 0.
            pub const fn numbers(self) -> [u32; 3] {
                self.spelled().numbers
            }
        }
    };
}

calls! {
    /// A call and its numbers. Records, pages, kinds, windows and turns may be any numbers: a store refuses those that it does not have.
    ///
    /// As text it is a line of a script: its letter and its numbers, `W 1 0 2`.
    Call;
    /// B: an empty open record in a new line. The result is its number.
    b'B' Begin;
    /// W record page kind: a free block goes on a page of an open record. The result is the block and its birth, and those of the block that was
    /// there before, if that was freed.
    b'W' Write(record: u32, page: u32, kind: u32);
    /// E record page: a page of an open record becomes empty. The result is the block that was there and its birth, if it was freed.
    b'E' Erase(record: u32, page: u32);
    /// S record: the record is sealed, an open one with the same pages and the record's name follows it; in a line with a window the oldest sealed records
    /// are then deleted, and their blocks join the queue. The result is the open record's number.
    b'S' Seal(record: u32);
    /// F record: a new line forks from a sealed record. The result is the number of its open record.
    b'F' Fork(record: u32);
    /// D record: the record leaves the store, and the blocks that it alone had join the queue. There is no result.
    b'D' Delete(record: u32);
    /// R record page: the block on a page and its birth, or nothing.
    b'R' Read(record: u32, page: u32);
    /// Y: a barrier in the log; no block waits after it. There is no result.
    b'Y' Barrier;
    /// C: the log is written again, as short as it can be; no block waits after it. The result is the number of its words.
    b'C' Compress;
    /// L: the free blocks but for those that wait. The result is the first block and the length of each run.
    b'L' FreeList;
    /// Q record: what the delete of the record would do. The result is the numbers of blocks that it would queue, of log words, which is 0, and of shards.
    b'Q' Estimate(record: u32);
    /// K record most: a window on the line of an open record: from now on a seal there deletes the oldest sealed records without a fork or a name until so
    /// many are left. There is no result.
    b'K' Retain(record: u32, most: u32);
    /// T most: the first blocks of the queue are freed, so many or all. The result is each of them and its birth.
    b'T' Reclaim(most: u32);
}

calls! {
    /// What a call does with a name, which stands beside it ([`Command::Naming`]), and its number. The record may be any number.
    Naming;
    /// N name record: the name is put on the record. There is no result.
    b'N' Attach(record: u32);
    /// U name: the name is taken off its record. There is no result.
    b'U' Detach;
    /// M name: the record that the name is on. The result is its number.
    b'M' Resolve;
}

/// Any call: one of a letter and numbers, or one with a name.
///
/// As bytes it is a line of a script: `W 1 0 2`, `N easter 412`, `M easter`.
#[derive(Clone, Copy, Debug, PartialEq, Eq, Hash)]
pub enum Command<'n> {
    /// A call without a name.
    Unnamed(Call),
    /// A call with a name, which may be any bytes: a store refuses those that are no name.
    Naming(Naming, &'n [u8]),
}

impl From<Call> for Command<'_> {
    fn from(call: Call) -> Self {
        Command::Unnamed(call)
    }
}

impl Call {
    /// How the numbers of a result are spelled.
    pub const fn spelling(self) -> Spelling {
        match self {
            Call::Write(..) | Call::Erase(..) | Call::Read(..) | Call::Reclaim(_) => Spelling::Blocks,
            _ => Spelling::Numbers,
        }
    }
}

impl<'n> Command<'n> {
    /// How the numbers of a result are spelled.
    pub const fn spelling(self) -> Spelling {
        match self {
            Command::Unnamed(call) => call.spelling(),
            Command::Naming(..) => Spelling::Numbers,
        }
    }

    /// The line of a script that the call is: the letter, the name if it has one, the numbers, single spaces. [`Command::parse`] takes it for the call, unless
    /// the name is one that a script cannot have: an empty one, one with a space or a line feed in it, or one that makes the line too long.
    pub fn line(self) -> Vec<u8> {
        match self {
            Command::Unnamed(call) => call.to_string().into_bytes(),
            Command::Naming(naming, name) => {
                let numbers = naming.numbers().into_iter().take(naming.takes()).map(|number| number.to_string().into_bytes());
                let words: Vec<Vec<u8>> = [vec![naming.letter()], name.to_vec()].into_iter().chain(numbers).collect();
                words.join(&b' ')
            }
        }
    }

    /// The call that a line of a script is, of at most 80 bytes: the letter; a name, which is any bytes up to the next space; numbers of 1 to 7 digits,
    /// without leading zeros; each after a single space.
    ///
    /// # Errors
    ///
    /// The line is no call.
    pub fn parse(line: &'n [u8]) -> Result<Command<'n>, NoCall> {
        if line.len() > LINE || line.contains(&b'\n') {
            return Err(NoCall);
        }
        let mut words = line.split(|&byte| byte == b' ');
        let &[letter] = words.next().unwrap_or(&[]) else { return Err(NoCall) };
        let name = if Naming::LETTERS.contains(&letter) { words.next().unwrap_or(&[]) } else { &[] };
        let (mut numbers, mut count) = ([0; 3], 0);
        for word in words {
            *numbers.get_mut(count).ok_or(NoCall)? = number(word).ok_or(NoCall)?;
            count += 1;
        }
        let call = Call::of(letter, numbers).filter(|call| call.takes() == count).map(Command::Unnamed);
        let naming = Naming::of(letter, numbers).filter(|naming| naming.takes() == count && !name.is_empty());
        call.or(naming.map(|naming| Command::Naming(naming, name))).ok_or(NoCall)
    }
}

/// The most bytes of a line of a script.
const LINE: usize = 80;

/// Which numbers of a result are blocks. A block has its birth after it, and as text a colon between the two.
#[derive(Clone, Copy, Debug, PartialEq, Eq, Hash)]
pub enum Spelling {
    /// None of them.
    Numbers,
    /// All of them: blocks, each with its birth.
    Blocks,
}

impl Spelling {
    /// The blocks of a result, each with its birth.
    pub fn blocks(self, numbers: &[u32]) -> impl Iterator<Item = (u32, u32)> + '_ {
        let blocks = if self == Spelling::Blocks { numbers } else { &[] };
        blocks.chunks_exact(2).map(|pair| (pair[0], pair[1]))
    }

    /// The numbers of a result as text, a space before each, but a colon before a birth.
    pub fn text(self, numbers: &[u32]) -> String {
        match self {
            Spelling::Numbers => numbers.iter().map(|n| format!(" {n}")).collect(),
            Spelling::Blocks => self.blocks(numbers).map(|(block, birth)| format!(" {block}:{birth}")).collect(),
        }
    }
}

/// A letter and how many of the numbers follow it.
struct Spelled {
    letter: u8,
    takes: usize,
    numbers: [u32; 3],
}

impl Spelled {
    const fn new(letter: u8, given: &[u32]) -> Spelled {
        let mut numbers = [0; 3];
        let mut at = 0;
        while at < given.len() {
            numbers[at] = given[at];
            at += 1;
        }
        Spelled { letter, takes: given.len(), numbers }
    }
}

impl fmt::Display for Call {
    fn fmt(&self, f: &mut fmt::Formatter<'_>) -> fmt::Result {
        let Spelled { letter, takes, numbers } = self.spelled();
        write!(f, "{}", char::from(letter))?;
        numbers[..takes].iter().try_for_each(|number| write!(f, " {number}"))
    }
}

/// A line that spells no call.
#[derive(Clone, Copy, Debug, PartialEq, Eq, Hash)]
pub struct NoCall;

impl fmt::Display for NoCall {
    fn fmt(&self, f: &mut fmt::Formatter<'_>) -> fmt::Result {
        f.write_str("the line is no call")
    }
}

impl std::error::Error for NoCall {}

/// A line of a script that has no name; see [`Command::parse`].
impl FromStr for Call {
    type Err = NoCall;

    fn from_str(line: &str) -> Result<Call, NoCall> {
        match Command::parse(line.as_bytes())? {
            Command::Unnamed(call) => Ok(call),
            Command::Naming(..) => Err(NoCall),
        }
    }
}

fn number(word: &[u8]) -> Option<u32> {
    let digits = (1..=7).contains(&word.len()) && word.iter().all(u8::is_ascii_digit);
    let zeros_first = word.len() > 1 && word[0] == b'0';
    (digits && !zeros_first).then(|| word.iter().fold(0, |n, digit| 10 * n + u32::from(digit - b'0')))
}

#[cfg(test)]
mod tests {
    use super::*;

    #[test]
    fn each_letter_has_its_call() {
        for letter in 0..=u8::MAX {
            let call = Call::of(letter, [1, 20, 300]);
            assert_eq!(call.map(Call::letter), Call::LETTERS.contains(&letter).then_some(letter));
        }
        let numbers = Call::LETTERS.map(|letter| Call::of(letter, [1, 20, 300]).unwrap().takes());
        assert_eq!(numbers, [0, 3, 2, 1, 1, 1, 2, 0, 0, 0, 1, 2, 1]);
        for letter in 0..=u8::MAX {
            let naming = Naming::of(letter, [1, 20, 300]);
            assert_eq!(naming.map(Naming::letter), Naming::LETTERS.contains(&letter).then_some(letter));
            assert!(naming.is_none() || Call::of(letter, [0; 3]).is_none());
        }
        assert_eq!(Naming::LETTERS.map(|letter| Naming::of(letter, [1, 20, 300]).unwrap().numbers()), [[1, 0, 0], [0; 3], [0; 3]]);
    }

    #[test]
    fn numbers_stay_in_their_order() {
        let write = Call::of(b'W', [1, 20, 300]).unwrap();
        assert_eq!((write, write.numbers()), (Call::Write(1, 20, 300), [1, 20, 300]));
        let read = Call::of(b'R', [1, 20, 300]).unwrap();
        assert_eq!((read, read.numbers()), (Call::Read(1, 20), [1, 20, 0]));
    }

    #[test]
    fn numbers_and_blocks() {
        let spelled = |letter: u8, numbers: &[u32]| Call::of(letter, [0; 3]).unwrap().spelling().text(numbers);
        for letter in *b"WERT" {
            assert_eq!((spelled(letter, &[]), spelled(letter, &[3, 2, 5, 4])), (String::new(), " 3:2 5:4".into()));
        }
        for letter in *b"BSFDYCLQK" {
            assert_eq!((spelled(letter, &[]), spelled(letter, &[3, 2, 5])), (String::new(), " 3 2 5".into()));
        }
        assert_eq!(Command::Naming(Naming::Resolve, b"easter").spelling(), Spelling::Numbers);
        assert_eq!(Command::from(Call::Reclaim(1)).spelling(), Spelling::Blocks);
        assert!(Spelling::Blocks.blocks(&[3, 2, 5, 4]).eq([(3, 2), (5, 4)]));
        assert!(Spelling::Numbers.blocks(&[3, 2, 5, 4]).eq([]));
    }

    #[test]
    fn a_line_and_its_call() {
        for numbers in [[0, 0, 0], [1, 20, 300], [9_999_999, 0, 10]] {
            for call in Call::LETTERS.map(|letter| Call::of(letter, numbers).unwrap()) {
                assert_eq!(call.to_string().parse(), Ok(call));
                assert_eq!(Command::parse(&Command::from(call).line()), Ok(Command::Unnamed(call)));
            }
        }
        assert_eq!(Call::Write(1, 0, 2).to_string(), "W 1 0 2");
        assert_eq!(Call::Begin.to_string(), "B");
        assert_eq!(Call::Retain(1, 62).to_string(), "K 1 62");
        assert_eq!(Call::Reclaim(64).to_string(), "T 64");
        assert_eq!(Call::Seal(u32::MAX).to_string(), "S 4294967295");
    }

    #[test]
    fn a_line_with_a_name() {
        let longest = [b'x'; 78];
        for name in [b"easter".as_slice(), b"a", b"1", b"A\tb", b"\0", b"\r", &[128, 255], "\u{e9}".as_bytes(), &longest] {
            for naming in [Naming::Attach(0), Naming::Attach(9_999_999), Naming::Detach, Naming::Resolve] {
                let command = Command::Naming(naming, name);
                let line = command.line();
                assert_eq!(Command::parse(&line), if line.len() > 80 { Err(NoCall) } else { Ok(command) });
                assert_eq!(String::from_utf8_lossy(&line).parse::<Call>(), Err(NoCall));
            }
        }
        assert_eq!(Command::Naming(Naming::Attach(412), b"easter").line(), b"N easter 412");
        assert_eq!(Command::Naming(Naming::Detach, b"easter").line(), b"U easter");
        assert_eq!(Command::Naming(Naming::Resolve, &longest).line().len(), 80);
    }

    #[test]
    fn lines_with_a_name_that_are_no_calls() {
        let attach =
            ["N", "N ", "N a", "N a ", "N  1", "N  a 1", "N a  1", "N a 1 ", "N a 01", "N a 12345678", "N a b 1", "N a 1 2", "Na 1", "N\ta 1"];
        let others = ["U", "U ", "U  a", "U a ", "U a b", "U a 1", "M", "M ", "M  ", "M a 1", "Ma", "m a", "n a 1", "M a\n", "U \n", "N a\nb 1"];
        let too_long = format!("M {}", "a".repeat(79));
        for line in attach.into_iter().chain(others).chain([too_long.as_str()]) {
            assert_eq!(Command::parse(line.as_bytes()), Err(NoCall), "{line:?}");
        }
    }

    #[test]
    fn lines_that_are_no_calls() {
        let lines =
            ["", " ", "B ", " B", "b", "BB", "B 1", "S", "S ", "S 01", "S 00", "S +1", "S -1", "S 1 ", "S  1", "S 12345678", "W 1 0", "W 1 0 0 0"];
        for line in lines.into_iter().chain(["store", "S\t1", "S 1\n", "S ١", "É 1", "T", "T 1 2", "H 3", "K 1", "K 1 01", "K 1 2 3", "N a 1", "M a"])
        {
            assert_eq!(line.parse::<Call>(), Err(NoCall), "{line:?}");
        }
    }
}
