//! Cards: their columns and the entries of a statement.

use crate::letters::{in_name, starts_name};
use crate::reader::Reader;

/// The most cards a source has.
pub const MOST_CARDS: usize = 4000;
/// The most characters a name has.
pub const LONGEST_NAME: usize = 6;

/// How many statement columns a card of this width has; none where there is no such width.
pub fn statement_columns(width: u32) -> Option<usize> {
    match width {
        80 => Some(71),
        96 => Some(87),
        _ => None,
    }
}

/// The entries of a statement, each absent or a run of its columns.
#[derive(Debug, PartialEq, Eq)]
pub struct Entries<'a> {
    pub name: Option<&'a [u8]>,
    pub operation: Option<&'a [u8]>,
    pub operand: Option<&'a [u8]>,
}

/// The entries on these statement columns; none for a comment.
pub fn entries(columns: &[u8]) -> Option<Entries<'_>> {
    if columns.starts_with(b"*") {
        return None;
    }
    let mut reader = Reader::of(columns);
    let present = |entry: &'_ [u8]| !entry.is_empty();
    let name = Some(reader.run(|byte| byte != b' ')).filter(|name| present(name));
    reader.run(|byte| byte == b' ');
    let operation = Some(reader.run(|byte| byte != b' ')).filter(|entry| present(entry));
    reader.run(|byte| byte == b' ');
    let operand = Some(operand(reader.rest)).filter(|entry| present(entry) && *entry != b",");
    Some(Entries { name, operation, operand })
}

/// The operand at the head of the columns: it ends at the first blank outside apostrophes.
fn operand(columns: &[u8]) -> &[u8] {
    let mut inside = false;
    let end = columns.iter().position(|&byte| {
        inside ^= byte == b'\'';
        byte == b' ' && !inside
    });
    &columns[..end.unwrap_or(columns.len())]
}

/// Says whether the text is a name.
pub fn is_name(text: &[u8]) -> bool {
    text.len() <= LONGEST_NAME
        && text.first().is_some_and(|&first| starts_name(first))
        && text.iter().all(|&byte| in_name(byte))
}

#[cfg(test)]
mod tests {
    use super::*;

    /// The entries on a card, absent ones as empty texts.
    fn read(card: &'static str) -> Option<[&'static str; 3]> {
        let Entries { name, operation, operand } = entries(card.as_bytes())?;
        Some([name, operation, operand].map(|e| std::str::from_utf8(e.unwrap_or(b"")).unwrap()))
    }

    #[test]
    fn entries_are_parted_by_blanks() {
        assert_eq!(read("GO  MVC  OUT(2),KEY  REMARK"), Some(["GO", "MVC", "OUT(2),KEY"]));
        assert_eq!(read(" END"), Some(["", "END", ""]));
        assert_eq!(read("A+B EQU 1"), Some(["A+B", "EQU", "1"]));
        assert_eq!(read("   "), Some(["", "", ""]));
        assert_eq!(read("* A COMMENT"), None);
        assert_eq!(read(" * NONE"), Some(["", "*", "NONE"]));
    }

    #[test]
    fn a_blank_inside_apostrophes_does_not_end_the_operand() {
        assert_eq!(read(" DC C'A B' C D"), Some(["", "DC", "C'A B'"]));
        assert_eq!(read(" DC C'A'' B' C'"), Some(["", "DC", "C'A'' B'"]));
        assert_eq!(read(" DC C'A B"), Some(["", "DC", "C'A B"]));
    }

    #[test]
    fn a_lone_comma_means_no_operand() {
        assert_eq!(read(" END , THE END"), Some(["", "END", ""]));
        assert_eq!(read(" END ,"), Some(["", "END", ""]));
        assert_eq!(read(" END ,X"), Some(["", "END", ",X"]));
    }

    #[test]
    fn names() {
        assert!(["A", "$", "#1", "@@@@@@", "ABCDE9"].iter().all(|n| is_name(n.as_bytes())));
        assert!(["", "1", "1A", "ABCDEFG", "A+B", "A.", "A_"]
            .iter()
            .all(|n| !is_name(n.as_bytes())));
    }
}
