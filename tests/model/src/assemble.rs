//! The whole of an assembly: what is answered, and what becomes of the lent bytes.

use crate::cards::{statement_columns, MOST_CARDS};
use crate::pass_one::pass_one;
use crate::pass_two::pass_two;
use crate::Refusal;

/// The least length of the work area, and how much of it is zero afterwards.
pub const WORK: usize = 8192;

/// What an accepted assembly makes.
#[derive(Debug, Clone, PartialEq, Eq)]
pub struct Assembled {
    pub book: Vec<u8>,
    /// The count of names.
    pub names: u16,
}

/// Assembles the cards, given the lengths of the work area and the output.
pub fn assemble(
    width: u32,
    source: &[u8],
    work_length: usize,
    out_length: usize,
) -> Result<Assembled, Refusal> {
    let refuse = |number| Refusal { number, card: 0 };
    let columns = statement_columns(width).ok_or(refuse(1))?;
    let cards = source.chunks_exact(width as usize);
    if !cards.remainder().is_empty() {
        return Err(refuse(1));
    }
    if cards.len() > MOST_CARDS {
        return Err(refuse(2));
    }
    if work_length < WORK {
        return Err(refuse(3));
    }
    let pass_one = pass_one(cards.map(|card| &card[..columns]))?;
    let book = pass_two(&pass_one)?.bytes();
    if book.len() > out_length {
        return Err(refuse(30));
    }
    Ok(Assembled { book, names: pass_one.names.count() as u16 })
}

/// Assembles as the C interface does: the book goes into the output, the work area is cleared.
pub fn assemble_into(
    width: u32,
    source: &[u8],
    work: &mut [u8],
    out: &mut [u8],
) -> Result<Assembled, Refusal> {
    let answer = assemble(width, source, work.len(), out.len());
    if !matches!(answer, Err(Refusal { number: 1..=3, .. })) {
        work[..WORK].fill(0);
    }
    if let Ok(Assembled { book, .. }) = &answer {
        out[..book.len()].copy_from_slice(book);
    }
    answer
}

#[cfg(test)]
mod tests {
    use super::*;
    use crate::decks::punched;

    const NOISE: u8 = 0x5A;

    /// The answer to the cards, and what becomes of work area and output of these lengths.
    fn run(cards: &[&str], work: usize, out: usize) -> (Result<Assembled, Refusal>, [Vec<u8>; 2]) {
        let source = punched(cards.iter().copied(), 80).unwrap();
        let (mut work, mut out) = (vec![NOISE; work], vec![NOISE; out]);
        let answer = assemble_into(80, &source, &mut work, &mut out);
        (answer, [work, out])
    }

    /// The answer to START, so many cards and END.
    fn long(count: usize, card: impl Fn(usize) -> String) -> Result<Assembled, Refusal> {
        let cards: Vec<String> = (0..count).map(card).collect();
        let start = std::iter::once(" START 0");
        let cards = start.chain(cards.iter().map(String::as_str)).chain([" END"]);
        assemble(80, &punched(cards, 80).unwrap(), WORK, usize::MAX)
    }

    fn refused<T>(number: u8, card: u16) -> Result<T, Refusal> {
        Err(Refusal { number, card })
    }

    #[test]
    fn the_book_goes_into_the_output_and_the_work_area_is_cleared() {
        let book = crate::hex("0000000C 01 00 0000 0006 0002 0000 00 C1");
        let cards = [" START 0", " DC C'A'", " END"];
        let (answer, [work, out]) = run(&cards, WORK + 2, book.len() + 2);
        assert_eq!(answer, Ok(Assembled { book: book.clone(), names: 0 }));
        assert_eq!(work, [vec![0; WORK], vec![NOISE; 2]].concat());
        assert_eq!(out, [book, vec![NOISE; 2]].concat());
    }

    #[test]
    fn a_refusal_leaves_the_output() {
        let cards = [" START 0", " DC C'A'", " END"];
        let cleared = [vec![0; WORK], vec![NOISE]].concat();
        let lent = |out| [cleared.clone(), vec![NOISE; out]];
        assert_eq!(run(&cards, WORK + 1, 15), (refused(30, 0), lent(15)));
        assert_eq!(run(&cards[..2], WORK + 1, 99), (refused(9, 0), lent(99)));
    }

    #[test]
    fn refusals_1_to_3_leave_the_work_area_too() {
        let lent = |work| [vec![NOISE; work], vec![NOISE; 99]];
        assert_eq!(run(&[" START 0", " END"], WORK - 1, 99), (refused(3, 0), lent(WORK - 1)));
        let [mut work, mut out] = lent(WORK);
        assert_eq!(assemble_into(81, b"", &mut work, &mut out), refused(1, 0));
        assert_eq!(assemble_into(80, &[b' '; 79], &mut work, &mut out), refused(1, 0));
        assert_eq!(assemble_into(80, &[b' '; 4001 * 80], &mut work, &mut out), refused(2, 0));
        assert_eq!([work, out], lent(WORK));
    }

    #[test]
    fn cards_are_at_most_4000() {
        assert!(long(3998, |_| "*".to_string()).is_ok());
        assert_eq!(long(3999, |_| "*".to_string()), refused(2, 0));
        let source = [b' '; 4001 * 80 + 1];
        assert_eq!(assemble(80, &source, 0, 0), refused(1, 0));
        assert_eq!(assemble(80, &source[1..], 0, 0), refused(2, 0));
    }

    #[test]
    fn names_are_at_most_512() {
        let name = |i: usize| format!("N{i} EQU {i}");
        assert_eq!(long(512, name).unwrap().names, 512);
        assert_eq!(long(513, name), refused(17, 514));
        let again = |i: usize| if i == 512 { "N7 EQU 1".to_string() } else { name(i) };
        assert_eq!(long(513, again), refused(16, 514));
    }
}
