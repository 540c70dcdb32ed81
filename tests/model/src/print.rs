//! The book printer.

use crate::book::{Book, Record};

/// The most bytes the printer takes.
pub const LONGEST_INPUT: usize = 65_536;

/// What the printer writes for this input.
pub fn print(input: &[u8]) -> String {
    if input.len() > LONGEST_INPUT {
        return "REFUSED 57\n".to_string();
    }
    match Book::read(input) {
        Some(book) => lines(&book),
        None => "REFUSED 50\n".to_string(),
    }
}

fn lines(book: &Book) -> String {
    let flag = u8::from(book.entry.is_some());
    let entry = book.entry.unwrap_or(0);
    let header = format!("{:08X} 01 {flag:02X} {entry:04X}\n", book.rest_length());
    let records = book.records.iter().map(line);
    std::iter::once(header).chain(records).collect()
}

fn line(record: &Record) -> String {
    let Record { card, address, offsets, text } = record;
    let length = record.rest_length();
    let count = offsets.len();
    let offsets = if offsets.is_empty() { "-".to_string() } else { digits(offsets) };
    format!("{length:04X} {card:04X} {address:04X} {count:02X} {offsets} {}\n", digits(text))
}

fn digits(bytes: &[u8]) -> String {
    bytes.iter().map(|byte| format!("{byte:02X}")).collect()
}

#[cfg(test)]
mod tests {
    use super::*;
    use crate::hex;

    #[test]
    fn the_example_prints_whole() {
        let book = "00000028 01 01 0100
            000D 0002 0100 02 0204 0C01010D010B
            000A 0003 0106 01 02 C0870100
            0007 0004 010A 00 0A0B";
        let printed = "00000028 01 01 0100\n\
            000D 0002 0100 02 0204 0C01010D010B\n\
            000A 0003 0106 01 02 C0870100\n\
            0007 0004 010A 00 - 0A0B\n";
        assert_eq!(print(&hex(book)), printed);
    }

    #[test]
    fn a_book_without_records_is_a_header_line() {
        assert_eq!(print(&hex("00000004 01 00 0000")), "00000004 01 00 0000\n");
    }

    #[test]
    fn a_refusal_is_all_that_is_printed() {
        assert_eq!(print(&[]), "REFUSED 50\n");
        let bad_record = "0000000C 01 00 0000 0006 0FA1 0000 00 C1";
        assert_eq!(print(&hex(bad_record)), "REFUSED 50\n");
    }

    #[test]
    fn input_over_65536_bytes_goes_before_the_layout() {
        assert_eq!(print(&[0; LONGEST_INPUT]), "REFUSED 50\n");
        assert_eq!(print(&[0; LONGEST_INPUT + 1]), "REFUSED 57\n");
    }

    #[test]
    fn a_book_of_65536_bytes_is_printed() {
        let record =
            |card, length| Record { card, address: 0, offsets: vec![], text: vec![0xC1; length] };
        let mut records: Vec<Record> = (1..=249).map(|card| record(card, 256)).collect();
        records.push(record(250, 34));
        let mut book = Book { entry: None, records };
        assert_eq!(book.bytes().len(), LONGEST_INPUT);
        assert_eq!(print(&book.bytes()).lines().count(), 251);
        book.records[249] = record(250, 35);
        assert_eq!(print(&book.bytes()), "REFUSED 57\n");
    }
}
