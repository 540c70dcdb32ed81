//! The forms of DC and DS, and what a constant is in storage.

use crate::expressions::Expression;
use crate::letters::{ebcdic, hex_digit};
use crate::reader::{characters, Reader};

const LONGEST: u32 = 256;
const LONGEST_ADDRESS: u32 = 3;
const MOST_COPIES: u32 = 256;
const MOST_BYTES: u64 = 256;
/// The most copies that DS takes.
const MOST_AREAS: u32 = 65_535;

/// Copies and length; a number too large to hold is the largest.
#[derive(Debug, Clone, Copy)]
pub struct Extent {
    pub copies: u32,
    pub length: u32,
    longest: u32,
}

#[derive(Debug, Clone, Copy)]
pub struct Constant<'a> {
    pub extent: Extent,
    pub value: Written<'a>,
}

/// The value of a constant as it is written.
#[derive(Debug, Clone, Copy)]
pub enum Written<'a> {
    Data(Data<'a>),
    Address(Expression<'a>),
}

/// What stands between the apostrophes of a constant.
#[derive(Debug, Clone, Copy)]
pub enum Data<'a> {
    Characters(&'a [u8]),
    Hexadecimal(&'a [u8]),
    Decimal(&'a [u8]),
}

impl Extent {
    /// Takes the operand of DS; none where its form is wrong.
    pub fn read(reader: &mut Reader) -> Option<Extent> {
        let (copies, kind, length) = head(reader)?;
        let length = length.unwrap_or(if kind == b'A' { 2 } else { 1 });
        Some(Extent { copies, length, longest: longest(kind) })
    }

    /// Says whether the length is one that the type may have.
    pub fn length_fits(&self) -> bool {
        (1..=self.longest).contains(&self.length)
    }

    /// Says whether copies and length are in range for DS.
    pub fn area_fits(&self) -> bool {
        self.length_fits() && self.copies <= MOST_AREAS
    }

    /// The bytes of all copies.
    pub fn size(&self) -> u64 {
        u64::from(self.copies) * u64::from(self.length)
    }
}

/// Takes copies, type and length, the last only if it is there.
fn head(reader: &mut Reader) -> Option<(u32, u8, Option<u32>)> {
    let copies = number(reader).unwrap_or(1);
    let kind = *reader.rest.first().filter(|kind| b"CXDA".contains(kind))?;
    reader.pass(1);
    let length = if reader.takes(b'L') { Some(number(reader)?) } else { None };
    Some((copies, kind, length))
}

/// Takes one or more digits, however many.
fn number(reader: &mut Reader) -> Option<u32> {
    let digits = reader.run(|byte| byte.is_ascii_digit());
    let append =
        |value: u32, digit: &u8| value.saturating_mul(10).saturating_add(u32::from(digit - b'0'));
    (!digits.is_empty()).then(|| digits.iter().fold(0, append))
}

fn longest(kind: u8) -> u32 {
    if kind == b'A' {
        LONGEST_ADDRESS
    } else {
        LONGEST
    }
}

impl<'a> Constant<'a> {
    /// Takes the operand of DC; none where its form is wrong.
    pub fn read(reader: &mut Reader<'a>) -> Option<Constant<'a>> {
        let (copies, kind, length) = head(reader)?;
        let value = Written::read(reader, kind)?;
        let length = length.unwrap_or(match value {
            Written::Data(data) => data.needs(),
            Written::Address(_) => 2,
        });
        Some(Constant { extent: Extent { copies, length, longest: longest(kind) }, value })
    }

    /// Says whether copies and length are in range and the value is not too long.
    pub fn fits(&self) -> bool {
        let Extent { copies, length, .. } = self.extent;
        let too_long = matches!(self.value, Written::Data(data) if data.needs() > length);
        self.extent.length_fits()
            && !too_long
            && copies <= MOST_COPIES
            && self.extent.size() <= MOST_BYTES
    }
}

impl<'a> Written<'a> {
    fn read(reader: &mut Reader<'a>, kind: u8) -> Option<Written<'a>> {
        if kind == b'A' {
            reader.needs(b'(')?;
            let address = Expression::read(reader)?;
            reader.needs(b')')?;
            return Some(Written::Address(address));
        }
        let quoted = reader.quoted().filter(|quoted| !quoted.is_empty())?;
        let hexadecimal = || quoted.iter().all(|&digit| hex_digit(digit).is_some());
        let decimal = || quoted.iter().all(u8::is_ascii_digit);
        match kind {
            b'C' => Some(Written::Data(Data::Characters(quoted))),
            b'X' if hexadecimal() => Some(Written::Data(Data::Hexadecimal(quoted))),
            b'D' if decimal() => Some(Written::Data(Data::Decimal(quoted))),
            _ => None,
        }
    }
}

impl Data<'_> {
    /// The bytes that the data need.
    fn needs(&self) -> u32 {
        let bytes = match self {
            Data::Characters(quoted) => characters(quoted).count(),
            Data::Hexadecimal(digits) => digits.len().div_ceil(2),
            Data::Decimal(digits) => digits.len(),
        };
        bytes as u32
    }

    /// One copy of the data, which are not too long for it.
    pub fn bytes(&self, length: u32) -> Vec<u8> {
        let length = length as usize;
        let padding = |byte| std::iter::repeat_n(byte, length - self.needs() as usize);
        match self {
            Data::Characters(quoted) => {
                characters(quoted).chain(padding(b' ')).map(ebcdic).collect()
            }
            Data::Hexadecimal(digits) => {
                let mut bytes = vec![0; length];
                for (place, &digit) in digits.iter().rev().enumerate() {
                    let digit = hex_digit(digit).expect("the form was checked");
                    bytes[length - 1 - place / 2] |= digit << (place % 2 * 4);
                }
                bytes
            }
            Data::Decimal(digits) => {
                padding(b'0').chain(digits.iter().copied()).map(ebcdic).collect()
            }
        }
    }
}

#[cfg(test)]
mod tests {
    use super::*;
    use crate::hex;

    fn read(text: &str) -> Option<Constant<'_>> {
        let mut reader = Reader::of(text.as_bytes());
        Constant::read(&mut reader).filter(|_| reader.rest.is_empty())
    }

    fn copy(text: &str) -> Vec<u8> {
        let constant = read(text).expect(text);
        let Written::Data(data) = constant.value else { panic!("{text} is an address") };
        data.bytes(constant.extent.length)
    }

    #[test]
    fn a_short_value_is_filled() {
        assert_eq!(copy("CL4'A'"), hex("C1404040"));
        assert_eq!(copy("XL3'ABC'"), hex("000ABC"));
        assert_eq!(copy("XL1'F'"), hex("0F"));
        assert_eq!(copy("DL3'5'"), hex("F0F0F5"));
    }

    #[test]
    fn an_absent_length_is_what_the_value_needs() {
        assert_eq!(copy("C'A'''"), hex("C17D"));
        assert_eq!(copy("X'ABC'"), hex("0ABC"));
        assert_eq!(copy("D'007'"), hex("F0F0F7"));
        assert_eq!(read("A(1)").unwrap().extent.length, 2);
    }

    #[test]
    fn forms() {
        let bad =
            "C X'' C'' D'' D'1.5' D'-1' X'G' B'1' IL1'1' CL(5)'A' CL'A' L2'A' C'A'X C'A',C'B' \
            A A() A(1 A(1,2) A'1' C(1) AL2 5 -1C'A' +1C'A' 1+1C'A'";
        for text in bad.split_whitespace() {
            assert!(read(text).is_none(), "{text}");
        }
    }

    #[test]
    fn ranges() {
        let fits = |text: &str| read(text).expect(text).fits();
        let good = "0CL5'AB' 256C'A' 1CL256'A' 128AL2(1) 85AL3(1) 0000001CL0000002'A' DL32'1'";
        assert!(good.split_whitespace().all(fits));
        let bad = "257C'A' 1CL257'A' CL0'A' 129AL2(1) AL4(1) AL0(1) CL1'AB' XL1'0AB' DL1'00' \
            0CL1'AB' 99999999999C'A' CL99999999999'A' 2CL129'A' 257X'0'";
        assert!(!bad.split_whitespace().any(fits));
    }

    #[test]
    fn areas() {
        let read = |text: &str| {
            let mut reader = Reader::of(text.as_bytes());
            Extent::read(&mut reader).filter(|_| reader.rest.is_empty())
        };
        let size = |text: &str| read(text).filter(Extent::area_fits).map(|area| area.size());
        assert_eq!(["C", "X", "D", "A", "5AL3", "0CL7"].map(size), [1, 1, 1, 2, 15, 0].map(Some));
        assert_eq!(size("65535CL256"), Some(16_776_960));
        assert_eq!(["65536C", "CL257", "CL0", "AL4", "AL0"].map(size), [None; 5]);
        assert!(["", "CL", "5", "C'A'", "A(1)", "CL2'AB'", "B", "L5"]
            .iter()
            .all(|t| read(t).is_none()));
    }
}
