//! Numbers, lists and bytes as a script spells them.

use alderskein::raw::Listed;
use std::fmt;

/// The longest buffer or list a script may ask for; more is malformed.
pub const MOST_NUMBERS: usize = 1 << 26;

/// A decimal number that fits its width.
pub fn number<T: TryFrom<u64>>(text: &str) -> Option<T> {
    let plain = !text.is_empty() && text.bytes().all(|byte| byte.is_ascii_digit());
    T::try_from(plain.then(|| text.parse().ok())??).ok()
}

/// Bytes in hexadecimal, `-` for none.
pub fn bytes(text: &str) -> Option<Vec<u8>> {
    if text == "-" {
        return Some(Vec::new());
    }
    let digits: Option<Vec<u8>> =
        text.chars().map(|digit| digit.to_digit(16).map(|value| value as u8)).collect();
    let digits = digits.filter(|digits| digits.len() % 2 == 0)?;
    Some(digits.chunks_exact(2).map(|pair| 16 * pair[0] + pair[1]).collect())
}

/// A list: `-`, or parts joined by commas, each `V`, `V*N` or `V+S*N`.
pub fn list<T: TryFrom<u64> + Copy>(text: &str) -> Option<Vec<T>> {
    let mut numbers = Vec::new();
    if text != "-" {
        text.split(',').try_for_each(|part| add_part(part, &mut numbers))?;
    }
    Some(numbers)
}

fn add_part<T: TryFrom<u64> + Copy>(part: &str, numbers: &mut Vec<T>) -> Option<()> {
    let Some((front, count)) = part.split_once('*') else {
        numbers.push(number(part)?);
        return Some(());
    };
    let count = number::<u32>(count)?;
    if count as usize + numbers.len() > MOST_NUMBERS {
        return None;
    }
    let (first, step) = match front.split_once('+') {
        Some((first, step)) => (first, number::<u32>(step)?),
        None => (front, 0),
    };
    number::<T>(first)?;
    let first: u64 = number(first)?;
    for index in 0..u64::from(count) {
        numbers.push(T::try_from(first + u64::from(step) * index).ok()?);
    }
    Some(())
}

/// Bytes as a script spells them.
pub fn hex_text(bytes: &[u8]) -> String {
    match bytes {
        [] => "-".into(),
        _ => bytes.iter().map(|byte| format!("{byte:02X}")).collect(),
    }
}

/// A list as a script spells it, long runs with one step as one part.
pub fn list_text<T: Copy + Into<u64>>(numbers: &[T]) -> String {
    let mut rest: Vec<u64> = numbers.iter().map(|&number| number.into()).collect();
    let mut parts = Vec::new();
    while !rest.is_empty() {
        let length = run_length(&rest);
        parts.push(match (length, rest.get(1)) {
            (3.., Some(second)) if *second == rest[0] => format!("{}*{length}", rest[0]),
            (3.., Some(second)) => format!("{}+{}*{length}", rest[0], second - rest[0]),
            _ => rest[0].to_string(),
        });
        rest.drain(..if length < 3 { 1 } else { length });
    }
    if parts.is_empty() {
        "-".into()
    } else {
        parts.join(",")
    }
}

/// How many numbers from the front rise by one step, or stay.
fn run_length(numbers: &[u64]) -> usize {
    let step = match numbers {
        [first, second, ..] if second >= first => second - first,
        _ => return 1,
    };
    1 + numbers.windows(2).take_while(|pair| pair[1] >= pair[0] && pair[1] - pair[0] == step).count()
}

/// Numbers in full, joined by commas; `-` for none.
pub fn numbers_text<T: ToString>(numbers: &[T]) -> String {
    if numbers.is_empty() {
        return "-".into();
    }
    numbers.iter().map(T::to_string).collect::<Vec<_>>().join(",")
}

/// A listed word: count, symbols, stamps.
pub fn listed_text(word: &Listed) -> String {
    format!("{} {} {}", word.count, numbers_text(&word.symbols), numbers_text(&word.stamps))
}

/// A buffer's length and hash.
pub fn buffer_text<T: Copy + Into<u64>>(numbers: &[T]) -> String {
    let mut hashed = Hashed::default();
    numbers.iter().for_each(|&number| hashed.add(number.into()));
    hashed.to_string()
}

/// How many numbers there were, and their FNV-1a hash over eight bytes each.
#[derive(Clone, Copy, Debug, PartialEq)]
pub struct Hashed {
    length: usize,
    hash: u64,
}

impl Default for Hashed {
    fn default() -> Self {
        Hashed { length: 0, hash: 0xcbf2_9ce4_8422_2325 }
    }
}

impl Hashed {
    const PRIME: u64 = 0x100_0000_01b3;

    /// Takes one number more. Of a small one the seven bytes of zero only multiply.
    pub fn add(&mut self, number: u64) {
        self.length += 1;
        self.hash = match number {
            0..=255 => (self.hash ^ number).wrapping_mul(Self::PRIME.wrapping_pow(8)),
            _ => number
                .to_le_bytes()
                .iter()
                .fold(self.hash, |hash, &byte| (hash ^ u64::from(byte)).wrapping_mul(Self::PRIME)),
        };
    }

    /// Takes a listed word's numbers: count, symbols, stamps.
    pub fn add_listed(&mut self, word: &Listed) {
        self.add(word.count.into());
        word.symbols.iter().for_each(|&symbol| self.add(symbol.into()));
        word.stamps.iter().for_each(|&stamp| self.add(stamp.into()));
    }
}

/// The length and the hash, as a script shows a buffer.
impl fmt::Display for Hashed {
    fn fmt(&self, f: &mut fmt::Formatter) -> fmt::Result {
        write!(f, "{}:{:016x}", self.length, self.hash)
    }
}

#[cfg(test)]
mod tests {
    use super::*;

    #[test]
    fn lists_are_read_and_spelled() {
        assert_eq!(list::<u16>("-"), Some(vec![]));
        assert_eq!(list::<u16>("7,5*3,10+2*3"), Some(vec![7, 5, 5, 5, 10, 12, 14]));
        assert_eq!(list::<u16>("65535*0,70000*0"), None);
        for bad in ["", ",", "1,", "1+2", "1**2", "+1", "-1", "65536", "65535+1*2", "1*99999999999", "1+1"] {
            assert_eq!(list::<u16>(bad), None, "{bad}");
        }
        for text in ["-", "7", "7,6,5", "5*3,6", "0+3*5,1*4", "4294967295,0"] {
            assert_eq!(list_text(&list::<u32>(text).unwrap()), text);
        }
    }

    #[test]
    fn numbers_are_hashed_byte_by_byte() {
        let numbers = [0, 1, 255, 256, 65_535, 1 << 32, u64::MAX, 0];
        let bytes = numbers.iter().flat_map(|number| number.to_le_bytes());
        let step = |hash: u64, byte| (hash ^ u64::from(byte)).wrapping_mul(0x100_0000_01b3);
        let hash = bytes.fold(0xcbf2_9ce4_8422_2325, step);
        assert_eq!(buffer_text(&numbers), format!("8:{hash:016x}"));
        assert_eq!(buffer_text::<u8>(&[]), "0:cbf29ce484222325");
    }

    #[test]
    fn bytes_are_read_and_spelled() {
        assert_eq!(bytes("-"), Some(vec![]));
        assert_eq!(bytes("00fF"), Some(vec![0, 255]));
        assert_eq!([bytes("0"), bytes("0g"), bytes("é")], [None, None, None]);
        assert_eq!(hex_text(&[0, 255]), "00FF");
    }
}
