//! Decks written on one line each, with the answers that they must give.

use crate::assemble::{Assembled, WORK};
use crate::book::ADDRESSES;
use crate::load::load;
use crate::print::print;
use crate::Refusal;

/// A deck, the lent lengths, and the answer it must give.
#[derive(Debug)]
pub struct Deck {
    /// The line it stands on, counted from 1.
    pub line: usize,
    pub width: u32,
    pub work: usize,
    pub out: usize,
    pub source: Vec<u8>,
    pub wanted: Wanted,
}

#[derive(Debug, PartialEq, Eq)]
pub enum Wanted {
    Refused(Refusal),
    /// What is not said may be anything.
    Accepted {
        names: Option<u16>,
        printed: Option<String>,
        loaded: Option<Loaded>,
    },
}

/// Bytes that loading must have stored.
#[derive(Debug, PartialEq, Eq)]
pub struct Loaded {
    pub displacement: u16,
    pub address: usize,
    pub bytes: String,
}

/// All decks of a text; an error names the line that is not understood.
pub fn decks(text: &str) -> Result<Vec<Deck>, String> {
    let written = |line: &&str| !line.is_empty() && !line.starts_with('#');
    (1..)
        .zip(text.lines())
        .filter(|(_, line)| written(line))
        .map(|(number, line)| deck(number, line).ok_or(format!("line {number}: {line}")))
        .collect()
}

fn deck(line: usize, text: &str) -> Option<Deck> {
    let (lent, text) = text.split_once('{')?;
    let (cards, answer) = text.split_once("} => ")?;
    let (mut width, mut work, mut out) = (80, WORK, ADDRESSES);
    let mut words = lent.split_whitespace();
    while let Some(word) = words.next() {
        let number = words.next()?.parse().ok()?;
        match word {
            "width" => width = number,
            "work" => work = number,
            "out" => out = number,
            _ => return None,
        }
    }
    let cards: Vec<&str> = if cards.is_empty() { vec![] } else { cards.split(';').collect() };
    let source = punched(cards, width)?;
    let width = u32::try_from(width).ok()?;
    Some(Deck { line, width, work, out, source, wanted: wanted(answer)? })
}

/// The cards as a source: each filled with blanks to the width; none where one is too long.
pub fn punched<'a>(cards: impl IntoIterator<Item = &'a str>, width: usize) -> Option<Vec<u8>> {
    let mut source = Vec::new();
    for card in cards {
        let blanks = width.checked_sub(card.len())?;
        source.extend(card.bytes().chain(std::iter::repeat_n(b' ', blanks)));
    }
    Some(source)
}

/// Reads `no NUMBER CARD`, or `ok`, `ok NAMES` and what follows it.
fn wanted(text: &str) -> Option<Wanted> {
    let text = text.split("??").next()?.trim_end();
    if let Some(refusal) = text.strip_prefix("no ") {
        let (number, card) = refusal.split_once(' ')?;
        let refusal = Refusal { number: number.parse().ok()?, card: card.parse().ok()? };
        return Some(Wanted::Refused(refusal));
    }
    let (text, loaded) = apart(text, " @ ");
    let (text, printed) = apart(text, " = ");
    let names = match text.strip_prefix("ok")? {
        "" => None,
        names => Some(names.trim_start().parse().ok()?),
    };
    let printed = printed.map(|lines| lines.replace(" / ", "\n") + "\n");
    let loaded = match loaded {
        None => None,
        Some(text) => Some(loaded_bytes(text)?),
    };
    Some(Wanted::Accepted { names, printed, loaded })
}

/// What stands before the mark, and what stands behind it if it is there.
fn apart<'a>(text: &'a str, mark: &str) -> (&'a str, Option<&'a str>) {
    text.split_once(mark).map_or((text, None), |(before, behind)| (before, Some(behind)))
}

fn loaded_bytes(text: &str) -> Option<Loaded> {
    let mut words = text.split_whitespace();
    let displacement = words.next()?.parse().ok()?;
    let address = words.next()?.parse().ok()?;
    Some(Loaded { displacement, address, bytes: words.next()?.to_string() })
}

impl Wanted {
    /// Says in what the answer differs from the wanted one.
    pub fn difference(&self, answer: &Result<Assembled, Refusal>) -> Option<String> {
        match (self, answer) {
            (Wanted::Refused(wanted), Err(refusal)) if wanted == refusal => None,
            (Wanted::Accepted { names, printed, loaded }, Ok(assembled)) => {
                let wrong_names = names.is_some_and(|names| names != assembled.names);
                let got = print(&assembled.book);
                if wrong_names || printed.as_ref().is_some_and(|printed| *printed != got) {
                    return Some(format!("wanted {self:?}, got {} names, {got}", assembled.names));
                }
                loaded.as_ref().and_then(|loaded| loaded.when_loaded(&assembled.book))
            }
            _ => Some(format!("wanted {self:?}, got {answer:?}")),
        }
    }
}

impl Loaded {
    /// Says in what storage differs from the wanted bytes once the model has loaded the book.
    fn when_loaded(&self, book: &[u8]) -> Option<String> {
        let mut storage = vec![0xA5; ADDRESSES];
        match load(book, self.displacement, &mut storage) {
            Err(refusal) => Some(format!("wanted {self:?}, got {refusal:?}")),
            Ok(_) => self.difference(&storage),
        }
    }

    /// Says in what storage differs from the wanted bytes.
    pub fn difference(&self, storage: &[u8]) -> Option<String> {
        let stored = &storage[self.address..self.address + self.bytes.len() / 2];
        let stored: String = stored.iter().map(|byte| format!("{byte:02X}")).collect();
        (stored != self.bytes).then(|| format!("wanted {self:?}, stored {stored}"))
    }
}

#[cfg(test)]
mod tests {
    use super::*;

    #[test]
    fn a_deck_is_read() {
        let text =
            "# REMARK\n\nwidth 96 out 7 { START 0;A EQU 1; END} => ok 1 @ 256 257 00FF ?? no 1 2";
        let decks = decks(text).unwrap();
        let [Deck { line, width, work, out, source, wanted }] = &decks[..] else { panic!() };
        assert_eq!((*line, *width, *work, *out, source.len()), (3, 96, 8192, 7, 3 * 96));
        assert!(source[96..].starts_with(b"A EQU 1 "));
        let loaded = Loaded { displacement: 256, address: 257, bytes: "00FF".to_string() };
        let all = Wanted::Accepted { names: Some(1), printed: None, loaded: Some(loaded) };
        assert_eq!(*wanted, all);
    }

    #[test]
    fn answers_are_read() {
        let refused = Wanted::Refused(Refusal { number: 15, card: 2 });
        assert_eq!(wanted("no 15 2 ?? ok"), Some(refused));
        let printed = Some("00000004 01 00 0000\n0006 0003 0000 00 - C1\n".to_string());
        let text = "ok = 00000004 01 00 0000 / 0006 0003 0000 00 - C1";
        assert_eq!(wanted(text), Some(Wanted::Accepted { names: None, printed, loaded: None }));
        assert_eq!(
            ["", "no", "no 1", "no X 1", "okay", "ok X", "ok @ 1"].map(wanted),
            [(); 7].map(|_| None)
        );
    }

    #[test]
    fn what_is_not_understood_is_named() {
        let wrong = ["{ START}", "START => ok", "wide 80 {} => ok", "width {} => ok", "{} => yes"];
        for text in wrong {
            assert_eq!(decks(text).unwrap_err(), format!("line 1: {text}"));
        }
        let long = format!("{{{}}} => ok", "X".repeat(81));
        assert!(decks(&long).is_err());
    }
}
