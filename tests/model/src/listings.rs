//! Printed listings: each card with the address and the object code printed beside it.

use crate::book::{Book, Record};
use crate::decks::punched;

/// The width of a listing's cards.
pub const WIDTH: u32 = 96;

/// The cards of a listing, and what is printed beside each.
#[derive(Debug)]
pub struct Listing {
    pub source: Vec<u8>,
    codes: Vec<Option<Code>>,
}

/// The object code of a card, as far as it is printed.
#[derive(Debug)]
struct Code {
    address: u16,
    printed: Vec<u8>,
    /// How many bytes follow that are not printed.
    more: usize,
}

/// Reads `ADDRESS BYTES+MORE|CARD` lines; an error names the line that is not understood.
pub fn listing(text: &str) -> Result<Listing, String> {
    let (mut cards, mut codes) = (Vec::new(), Vec::new());
    for (number, line) in (1..).zip(text.lines()) {
        if line.is_empty() || line.starts_with('#') {
            continue;
        }
        let error = || format!("line {number}: {line}");
        let (left, card) = line.split_once('|').ok_or_else(error)?;
        let left = left.trim();
        codes.push(if left.is_empty() { None } else { Some(code(left).ok_or_else(error)?) });
        cards.push(card);
    }
    let source = punched(cards, WIDTH as usize).ok_or("a card is too long")?;
    Ok(Listing { source, codes })
}

fn code(text: &str) -> Option<Code> {
    let (address, bytes) = text.split_once(' ')?;
    let (bytes, more) = bytes.trim().split_once('+').unwrap_or((bytes.trim(), "0"));
    let byte = |at: usize| u8::from_str_radix(bytes.get(at..at + 2)?, 16).ok();
    let printed = (0..bytes.len()).step_by(2).map(byte).collect::<Option<Vec<u8>>>()?;
    let address = u16::from_str_radix(address, 16).ok()?;
    Some(Code { address, printed, more: more.parse().ok()? })
}

impl Code {
    fn agrees(&self, record: &Record) -> bool {
        self.address == record.address
            && record.text.starts_with(&self.printed)
            && record.text.len() == self.printed.len() + self.more
    }
}

impl Listing {
    /// Says on which card the book differs from what is printed.
    pub fn difference(&self, book: &Book) -> Option<String> {
        (1..).zip(&self.codes).find_map(|(card, code)| {
            let record = book.records.iter().find(|record| record.card == card);
            let agree = match (code, record) {
                (Some(code), Some(record)) => code.agrees(record),
                (None, None) => true,
                _ => false,
            };
            (!agree).then(|| format!("card {card}: printed {code:02X?}, got {record:02X?}"))
        })
    }
}

#[cfg(test)]
mod tests {
    use super::*;

    #[test]
    fn a_listing_is_compared() {
        let text = "# REMARK\n            | START 0\n0000 0102+1 | DC XL3'010203'\n";
        let listing = listing(text).unwrap();
        let record = |address, text: &[u8]| {
            let records = vec![Record { card: 2, address, offsets: vec![], text: text.to_vec() }];
            Book { entry: None, records }
        };
        assert_eq!(listing.source.len(), 2 * 96);
        assert_eq!(listing.difference(&record(0, &[1, 2, 3])), None);
        let wrong =
            [record(1, &[1, 2, 3]), record(0, &[1, 3, 3]), record(0, &[1, 2]), Book::default()];
        assert!(wrong.iter().all(|book| listing.difference(book).is_some()));
    }

    #[test]
    fn what_is_not_understood_is_named() {
        assert_eq!(listing(" START 0").unwrap_err(), "line 1:  START 0");
        assert!(["0000|X", "G000 01|X", "0000 1|X", "0000 01+|X"]
            .iter()
            .all(|t| listing(t).is_err()));
    }
}
