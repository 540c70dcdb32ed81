//! The book: its layout, read and written.

/// The highest card number.
pub const LAST_CARD: u16 = 4000;
/// The most bytes a record's text has.
pub const LONGEST_TEXT: usize = 256;
/// Addresses end here: that of a byte is lower.
pub const ADDRESSES: usize = 65_536;

/// What a book says.
#[derive(Debug, Clone, Default, PartialEq, Eq)]
pub struct Book {
    pub entry: Option<u16>,
    pub records: Vec<Record>,
}

/// What one card made.
#[derive(Debug, Clone, PartialEq, Eq)]
pub struct Record {
    pub card: u16,
    pub address: u16,
    /// Where the relocatable fields, two bytes each, begin in the text.
    pub offsets: Vec<u8>,
    pub text: Vec<u8>,
}

impl Book {
    /// Reads a book, or gives none where the bytes break the layout.
    pub fn read(bytes: &[u8]) -> Option<Book> {
        let (length, rest) = bytes.split_first_chunk()?;
        if usize::try_from(u32::from_be_bytes(*length)) != Ok(rest.len()) {
            return None;
        }
        let (&[version, flag, high, low], mut rest) = rest.split_first_chunk()?;
        let entry = match (version, flag, u16::from_be_bytes([high, low])) {
            (1, 0, 0) => None,
            (1, 1, entry) => Some(entry),
            _ => return None,
        };
        let mut records: Vec<Record> = Vec::new();
        while !rest.is_empty() {
            let (record, after) = Record::read(rest)?;
            if records.last().is_some_and(|before| before.card >= record.card) {
                return None;
            }
            records.push(record);
            rest = after;
        }
        Some(Book { entry, records })
    }

    /// Writes the book. Whether what it says keeps the layout is not asked.
    pub fn bytes(&self) -> Vec<u8> {
        let length = self.rest_length();
        let mut bytes = Vec::with_capacity(4 + length);
        bytes.extend((length as u32).to_be_bytes());
        bytes.extend([1, u8::from(self.entry.is_some())]);
        bytes.extend(self.entry.unwrap_or(0).to_be_bytes());
        for record in &self.records {
            record.append(&mut bytes);
        }
        bytes
    }

    /// The length that the book's first four bytes give.
    pub fn rest_length(&self) -> usize {
        let records: usize = self.records.iter().map(|r| 2 + r.rest_length()).sum();
        4 + records
    }
}

impl Record {
    /// Reads the record at the head of the bytes, and gives the bytes behind it too.
    fn read(bytes: &[u8]) -> Option<(Record, &[u8])> {
        let (length, bytes) = bytes.split_first_chunk()?;
        let length = usize::from(u16::from_be_bytes(*length));
        let (record, after) = bytes.split_at_checked(length)?;
        let (&[card_high, card_low, high, low, count], rest) = record.split_first_chunk()?;
        let (offsets, text) = rest.split_at_checked(usize::from(count))?;
        let record = Record {
            card: u16::from_be_bytes([card_high, card_low]),
            address: u16::from_be_bytes([high, low]),
            offsets: offsets.to_vec(),
            text: text.to_vec(),
        };
        record.keeps_layout().then_some((record, after))
    }

    /// Says whether card, address, offsets and text are such as a record may have.
    fn keeps_layout(&self) -> bool {
        let length = self.text.len();
        (1..=LAST_CARD).contains(&self.card)
            && (1..=LONGEST_TEXT).contains(&length)
            && usize::from(self.address) + length <= ADDRESSES
            && self.offsets.windows(2).all(|o| u16::from(o[0]) + 2 <= u16::from(o[1]))
            && self.offsets.iter().all(|&offset| usize::from(offset) + 2 <= length)
    }

    /// Appends the record to the bytes of a book.
    fn append(&self, bytes: &mut Vec<u8>) {
        bytes.extend((self.rest_length() as u16).to_be_bytes());
        bytes.extend(self.card.to_be_bytes());
        bytes.extend(self.address.to_be_bytes());
        bytes.push(self.offsets.len() as u8);
        bytes.extend(&self.offsets);
        bytes.extend(&self.text);
    }

    /// The length that the record's first two bytes give.
    pub fn rest_length(&self) -> usize {
        5 + self.offsets.len() + self.text.len()
    }
}

#[cfg(test)]
mod tests {
    use super::*;
    use crate::hex;

    fn kept(digits: &str) -> bool {
        Book::read(&hex(digits)).is_some()
    }

    /// A book of one record with this head (card, address, count), offsets and text length.
    fn one(head: &str, offsets: &[u8], length: usize) -> Vec<u8> {
        let mut record = hex(head);
        record.extend(offsets);
        record.resize(record.len() + length, 0xC1);
        let mut book = (record.len() as u32 + 6).to_be_bytes().to_vec();
        book.extend([1, 0, 0, 0]);
        book.extend((record.len() as u16).to_be_bytes());
        book.extend(record);
        book
    }

    #[test]
    fn the_length_is_that_of_all_the_rest() {
        assert!(kept("00000004 01 00 0000"));
        assert!(!kept("00000004 01 00 0000 00"));
        assert!(!kept("00000005 01 00 0000"));
        assert!(!kept("00000003 01 00 00"));
        assert!(!kept("00000000"));
        assert!(!kept("000000"));
        assert!(!kept(""));
    }

    #[test]
    fn version_flag_and_entry() {
        assert!(!kept("00000004 00 00 0000"));
        assert!(!kept("00000004 02 00 0000"));
        assert!(!kept("00000004 01 02 0000"));
        assert!(!kept("00000004 01 00 0001"));
        assert_eq!(Book::read(&hex("00000004 01 01 0000")).unwrap().entry, Some(0));
        assert_eq!(Book::read(&hex("00000004 01 01 FFFF")).unwrap().entry, Some(65535));
    }

    #[test]
    fn card_numbers_rise_from_1_to_4000() {
        let two = |a: &str, b: &str| {
            let records = format!("0006 {a} 0000 00 C1  0006 {b} 0000 00 C1");
            kept(&format!("00000014 01 00 0000 {records}"))
        };
        assert!(two("0001", "0002") && two("0001", "0FA0"));
        assert!(!two("0001", "0001") && !two("0002", "0001"));
        assert!(!two("0000", "0001") && !two("0001", "0FA1"));
    }

    #[test]
    fn texts_have_1_to_256_bytes_below_65536() {
        let kept = |head, length| Book::read(&one(head, &[], length)).is_some();
        assert!(!kept("0001 0000 00", 0));
        assert!(kept("0001 0000 00", 1) && kept("0001 0000 00", 256));
        assert!(!kept("0001 0000 00", 257));
        assert!(kept("0001 FFFF 00", 1) && !kept("0001 FFFF 00", 2));
        assert!(kept("0001 FF00 00", 256) && !kept("0001 FF01 00", 256));
    }

    #[test]
    fn offsets_ascend_by_2_inside_the_text() {
        let kept = |head, offsets: &[u8], length| Book::read(&one(head, offsets, length)).is_some();
        assert!(kept("0001 0000 02", &[0, 2], 4) && kept("0001 0000 02", &[1, 254], 256));
        assert!(!kept("0001 0000 02", &[0, 1], 3) && !kept("0001 0000 02", &[0, 0], 4));
        assert!(!kept("0001 0000 02", &[2, 0], 4));
        assert!(!kept("0001 0000 01", &[1], 2) && !kept("0001 0000 01", &[0], 1));
        assert!(!kept("0001 0000 01", &[255], 256));
        let all: Vec<u8> = (0..128).map(|k| 2 * k).collect();
        assert!(kept("0001 0000 80", &all, 256));
    }

    #[test]
    fn a_record_ends_inside_the_book() {
        assert!(kept("0000000C 01 00 0000  0006 0001 0000 00 C1"));
        assert!(!kept("0000000C 01 00 0000  0007 0001 0000 00 C1"));
        assert!(!kept("0000000C 01 00 0000  0005 0001 0000 00 C1"));
        assert!(!kept("0000000C 01 00 0000  0006 0001 0000 01 C1"));
        assert!(!kept("0000000C 01 00 0000  0006 0001 0000 02 C1"));
        assert!(!kept("00000005 01 00 0000  00"));
        assert!(!kept("00000006 01 00 0000  0000"));
        assert!(!kept("0000000A 01 00 0000  0004 0001 0000"));
    }

    #[test]
    fn what_is_written_is_read_back() {
        let record = |card, address| Record { card, address, offsets: vec![1], text: vec![7; 3] };
        let records = vec![record(3, 65533), record(4, 0), record(4000, 1)];
        let book = Book { entry: Some(0x9999), records };
        assert_eq!(Book::read(&book.bytes()), Some(book));
    }
}
