//! The rules, written plainly and apart from the proved library, so that the two can be
//! held against each other: what cards assemble to, what a book is, what loading does, what
//! the printer prints.

pub mod assemble;
pub mod book;
pub mod cards;
mod data;
pub mod decks;
mod expressions;
mod letters;
pub mod listings;
pub mod load;
mod names;
mod operands;
pub mod operations;
pub mod packed;
mod pass_one;
mod pass_two;
pub mod print;
mod reader;
mod statements;
mod terms;
mod text;

/// A refusal: its number, and the card it gives, 0 where it gives none.
#[derive(Debug, Clone, Copy, PartialEq, Eq)]
pub struct Refusal {
    pub number: u8,
    pub card: u16,
}

/// The bytes that hex digits stand for; blanks are skipped.
#[cfg(test)]
fn hex(digits: &str) -> Vec<u8> {
    let digits: Vec<u8> = digits
        .chars()
        .filter(|c| !c.is_whitespace())
        .map(|c| c.to_digit(16).expect("a hex digit") as u8)
        .collect();
    digits.chunks(2).map(|pair| pair[0] << 4 | pair[1]).collect()
}
