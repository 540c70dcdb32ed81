//! Terms.

use crate::cards::is_name;
use crate::letters::{ebcdic, hex_digit, in_name, starts_name};
use crate::reader::{characters, Reader};

#[derive(Debug, Clone, Copy, PartialEq, Eq)]
pub enum Term<'a> {
    /// A decimal, X'..', B'..' or C'..'.
    Number(u16),
    Symbol(&'a [u8]),
    /// The counter at the start of the card.
    Counter,
}

impl<'a> Term<'a> {
    /// Takes the term that is next; none where no term is.
    pub fn read(reader: &mut Reader<'a>) -> Option<Term<'a>> {
        match *reader.rest {
            [b'*', ..] => {
                reader.pass(1);
                Some(Term::Counter)
            }
            [b'0'..=b'9', ..] => decimal(reader).map(Term::Number),
            [b'X', b'\'', ..] => hexadecimal(reader).map(Term::Number),
            [b'B', b'\'', ..] => binary(reader).map(Term::Number),
            [b'C', b'\'', ..] => character(reader).map(Term::Number),
            [first, ..] if starts_name(first) => {
                Some(reader.run(in_name)).filter(|name| is_name(name)).map(Term::Symbol)
            }
            _ => None,
        }
    }
}

/// Takes 1 to 5 digits, at most 65535.
pub fn decimal(reader: &mut Reader) -> Option<u16> {
    let digits = reader.run(|byte| byte.is_ascii_digit());
    let value = number(digits, 10, 1..=5)?;
    u16::try_from(value).ok()
}

/// Takes X and 1 to 4 hex digits in apostrophes.
pub fn hexadecimal(reader: &mut Reader) -> Option<u16> {
    reader.needs(b'X')?;
    number(reader.quoted()?, 16, 1..=4).map(|value| value as u16)
}

/// Takes B and 1 to 16 binary digits in apostrophes.
fn binary(reader: &mut Reader) -> Option<u16> {
    reader.needs(b'B')?;
    number(reader.quoted()?, 2, 1..=16).map(|value| value as u16)
}

/// Takes C and 1 or 2 characters in apostrophes.
fn character(reader: &mut Reader) -> Option<u16> {
    reader.needs(b'C')?;
    let quoted = reader.quoted()?;
    let codes = || characters(quoted).map(ebcdic);
    let value = codes().fold(0, |value, code| value << 8 | u16::from(code));
    (1..=2).contains(&codes().count()).then_some(value)
}

/// The number that so many digits of this base stand for.
fn number(digits: &[u8], base: u32, count: std::ops::RangeInclusive<usize>) -> Option<u32> {
    if !count.contains(&digits.len()) {
        return None;
    }
    digits.iter().try_fold(0, |value, &digit| {
        let digit = u32::from(hex_digit(digit)?);
        (digit < base).then_some(value * base + digit)
    })
}

#[cfg(test)]
mod tests {
    use super::*;

    /// The term that the text begins with, and what is left of the text.
    fn read(text: &str) -> Option<(Term<'_>, &str)> {
        let mut reader = Reader::of(text.as_bytes());
        let term = Term::read(&mut reader)?;
        Some((term, std::str::from_utf8(reader.rest).unwrap()))
    }

    fn number(text: &str) -> Option<u16> {
        match read(text) {
            Some((Term::Number(value), "")) => Some(value),
            _ => None,
        }
    }

    #[test]
    fn sizes_of_numbers() {
        assert_eq!(number("65535"), Some(65535));
        assert_eq!(number("00005"), Some(5));
        assert_eq!(["65536", "99999", "000005", ""].map(number), [None; 4]);
        assert_eq!(number("X'FFFF'"), Some(65535));
        assert_eq!(["X''", "X'10000'", "X'G'", "X'1 2'", "X'1"].map(number), [None; 5]);
        assert_eq!(number("B'1111111111111111'"), Some(65535));
        assert_eq!(["B''", "B'00000000000000000'", "B'2'"].map(number), [None; 3]);
    }

    #[test]
    fn characters_have_their_codes_the_first_one_high() {
        assert_eq!(number("C'A'"), Some(0x00C1));
        assert_eq!(number("C'A'''"), Some(0xC17D));
        assert_eq!(number("C''''"), Some(0x7D));
        assert_eq!(number("C'  '"), Some(0x4040));
        assert_eq!(["C''", "C'ABC'", "C'''", "C'A"].map(number), [None; 4]);
    }

    #[test]
    fn symbols() {
        assert_eq!(read("ABCDE9+1"), Some((Term::Symbol(b"ABCDE9"), "+1")));
        assert_eq!(read("X+1"), Some((Term::Symbol(b"X"), "+1")));
        assert_eq!(read("D'5'"), Some((Term::Symbol(b"D"), "'5'")));
        assert_eq!(read("ABCDEFG"), None);
    }

    #[test]
    fn the_counter_and_nothing_else() {
        assert_eq!(read("**2"), Some((Term::Counter, "*2")));
        assert_eq!(["(1)", "+1", "-1", ",", ")", "'"].map(read), [None; 6]);
    }
}
