//! Loading a book into storage.

use crate::book::{Book, Record, ADDRESSES};
use crate::Refusal;

/// What an accepted load answers.
#[derive(Debug, Clone, Copy, PartialEq, Eq)]
pub struct Loaded {
    /// The bytes stored, overlaid ones counted each time.
    pub stored: u32,
    /// The entry plus the displacement.
    pub entry: Option<u16>,
}

/// Loads the book. A refusal leaves storage as it was.
pub fn load(book: &[u8], displacement: u16, storage: &mut [u8]) -> Result<Loaded, Refusal> {
    let book = Book::read(book).ok_or(Refusal { number: 50, card: 0 })?;
    if let Some(card) = text_outside(&book, displacement, storage.len()) {
        return Err(Refusal { number: 51, card });
    }
    if let Some(card) = sum_over(&book, displacement) {
        return Err(Refusal { number: 52, card });
    }
    let mut stored = 0;
    for record in &book.records {
        let text = moved(record, displacement).expect("52 was asked before");
        let start = usize::from(record.address) + usize::from(displacement);
        storage[start..start + text.len()].copy_from_slice(&text);
        stored += text.len() as u32;
    }
    let entry = book.entry.map(|entry| entry + displacement);
    Ok(Loaded { stored, entry })
}

/// The card of the first record whose text would lie outside storage.
pub fn text_outside(book: &Book, displacement: u16, storage_length: usize) -> Option<u16> {
    let counted = storage_length.min(ADDRESSES);
    let end = |r: &Record| usize::from(r.address) + usize::from(displacement) + r.text.len();
    book.records.iter().find(|r| end(r) > counted).map(|r| r.card)
}

/// The card of the first record with a field over 65535 once moved; 0 for the entry alone.
pub fn sum_over(book: &Book, displacement: u16) -> Option<u16> {
    let entry_over = book.entry.is_some_and(|entry| entry.checked_add(displacement).is_none());
    let record = book.records.iter().find(|r| moved(r, displacement).is_none());
    record.map(|r| r.card).or(entry_over.then_some(0))
}

/// The record's text with the displacement added to its fields; none where one is over 65535.
pub fn moved(record: &Record, displacement: u16) -> Option<Vec<u8>> {
    let mut text = record.text.clone();
    for &offset in &record.offsets {
        let at = usize::from(offset);
        let field = u16::from_be_bytes([text[at], text[at + 1]]).checked_add(displacement)?;
        text[at..at + 2].copy_from_slice(&field.to_be_bytes());
    }
    Some(text)
}

#[cfg(test)]
mod tests {
    use super::*;
    use crate::hex;

    const FILL: u8 = 0x5A;
    const TOP_BYTE: &str = "0000000C 01 00 0000  0006 0007 FFFF 00 C1";

    /// Loads into storage of this length, and gives the answer and the storage.
    fn loaded(book: &str, displacement: u16, length: usize) -> (Result<Loaded, Refusal>, Vec<u8>) {
        let mut storage = vec![FILL; length];
        (load(&hex(book), displacement, &mut storage), storage)
    }

    /// Expects a refusal that leaves storage as it was.
    fn refuses(book: &str, displacement: u16, length: usize, number: u8, card: u16) {
        let (answer, storage) = loaded(book, displacement, length);
        assert_eq!(answer, Err(Refusal { number, card }), "{book}");
        assert!(storage.iter().all(|&byte| byte == FILL), "{book}");
    }

    /// Expects an accepted load that changes storage from `at` on to these bytes, and no more.
    fn stores(book: &str, displacement: u16, length: usize, answer: Loaded, at: usize, text: &str) {
        let (got, storage) = loaded(book, displacement, length);
        let mut wanted = vec![FILL; length];
        let text = hex(text);
        wanted[at..at + text.len()].copy_from_slice(&text);
        assert_eq!(got, Ok(answer), "{book}");
        assert_eq!(storage, wanted, "{book}");
    }

    fn answer(stored: u32, entry: Option<u16>) -> Loaded {
        Loaded { stored, entry }
    }

    #[test]
    fn a_program_is_moved() {
        let book = "00000028 01 01 0100
            000D 0002 0100 02 0204 0C01010D010B
            000A 0003 0106 01 02 C0870100
            0007 0004 010A 00 0A0B";
        let at_0 = "0C01010D010B C0870100 0A0B";
        let at_4096 = "0C01110D110B C0871100 0A0B";
        stores(book, 0, 65536, answer(12, Some(0x0100)), 0x0100, at_0);
        stores(book, 0x1000, 0x110C, answer(12, Some(0x1100)), 0x1100, at_4096);
        refuses(book, 0x1000, 0x110B, 51, 4);
    }

    #[test]
    fn an_overlaid_field_does_not_move() {
        let book = "00000017 01 00 0000
            0008 0002 0000 01 00 0001
            0007 0004 0000 00 00FF";
        stores(book, 256, 1024, answer(4, None), 256, "00FF");
    }

    #[test]
    fn the_book_is_read_whole_before_loading() {
        refuses("00000004 01 00 0000 00", 0, 100, 50, 0);
        refuses("00000014 01 00 0000 0006 0001 0000 00 C1 0006 0001 0000 00 C1", 0, 100, 50, 0);
    }

    #[test]
    fn any_book_that_keeps_the_layout_is_loaded() {
        let book = "0000000E 01 01 9999 0008 0001 0000 01 00 FFFF";
        stores(book, 0, 100, answer(2, Some(39321)), 0, "FFFF");
    }

    #[test]
    fn storage_counts_up_to_65536_bytes() {
        refuses(TOP_BYTE, 1, 70000, 51, 7);
        stores(TOP_BYTE, 0, 70000, answer(1, None), 65535, "C1");
    }

    #[test]
    fn addresses_do_not_wrap() {
        refuses(TOP_BYTE, 1, 65536, 51, 7);
        refuses(TOP_BYTE, 65535, 65536, 51, 7);
    }

    #[test]
    fn a_field_goes_before_the_entry() {
        refuses("0000000E 01 01 FFFF 0008 0003 0000 01 00 FFFF", 1, 100, 52, 3);
        refuses("0000000E 01 01 FFFF 0008 0003 0000 01 00 0000", 1, 100, 52, 0);
    }

    #[test]
    fn text_outside_goes_before_sums_over() {
        let book = "00000016 01 00 0000 0008 0003 0000 01 00 FFFF 0006 0005 0064 00 C1";
        refuses(book, 1, 100, 51, 5);
        refuses(book, 1, 102, 52, 3);
    }

    #[test]
    fn without_an_entry_none_is_over() {
        stores("00000004 01 00 0000", 65535, 0, answer(0, None), 0, "");
        stores("00000004 01 01 0000", 65535, 0, answer(0, Some(65535)), 0, "");
        refuses("00000004 01 01 0001", 65535, 0, 52, 0);
    }

    #[test]
    fn fields_are_those_of_the_book_not_of_storage() {
        let book = "00000017 01 00 0000 0007 0001 0000 00 FFFF 0008 0002 0000 01 00 0001";
        stores(book, 2, 100, answer(4, None), 2, "0003");
    }
}
