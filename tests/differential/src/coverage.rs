//! What the decks of a run must meet: refusals, operation bytes, forms of operands.

use crate::decks::{mnemonics, Made};
use crate::tally::Tally;
use model::assemble::{Assembled, WORK};
use model::book::Book;
use model::cards::{entries, statement_columns};
use model::operations::{Item, Operation, Q};
use model::Refusal;

const NUMBERS: [u8; 20] =
    [1, 2, 3, 9, 10, 11, 12, 13, 14, 15, 16, 17, 18, 19, 20, 21, 22, 23, 24, 30];
const ACCEPTED: [&str; 5] = [
    "accepted",
    "accepted, with an entry",
    "accepted, with a field",
    "accepted, the output exactly long enough",
    "accepted, the work area longer than 8,192",
];

const BY_CARD: &str = "refusals by kind of card";
const MNEMONICS: &str = "operations";
const BYTES: &str = "operation bytes";
const FORMS: &str = "forms of instructions";
const DATA: &str = "forms of DC and DS";

/// Kinds of card, and the refusals of 15 to 24, but 17, that each must have met.
const REFUSED: [(&str, &[u8]); 18] = [
    ("START", &[15]),
    ("EQU", &[15, 16, 18, 19, 20]),
    ("ORG", &[15, 18, 19, 20]),
    ("DC", &[15, 16, 18, 19, 20, 21, 24]),
    ("DS", &[15, 16, 20, 21, 24]),
    ("USING", &[15, 18, 19, 20, 22]),
    ("DROP", &[15, 18, 19, 20, 22]),
    ("END", &[15, 18, 19, 20]),
    ("two lengths", &[15, 16, 18, 19, 20, 21, 22, 23, 24]),
    ("one length", &[15, 16, 18, 19, 20, 21, 22, 23, 24]),
    ("MVX", &[15, 16, 18, 19, 20, 21, 22, 23, 24]),
    ("extended move", &[15, 16, 18, 19, 20, 22, 23, 24]),
    ("one address", &[15, 16, 18, 19, 20, 21, 22, 23, 24]),
    ("branch", &[15, 16, 18, 19, 20, 21, 22, 23, 24]),
    ("LA", &[15, 16, 18, 19, 20, 21, 22, 23, 24]),
    ("extended branch", &[15, 16, 18, 19, 20, 22, 23, 24]),
    ("JC", &[15, 16, 18, 19, 20, 21, 23, 24]),
    ("extended jump", &[15, 16, 18, 19, 20, 23, 24]),
];

/// A tally of all that must be met.
pub fn tally() -> Tally {
    let numbers = NUMBERS.iter().map(|number| format!("{number:2}"));
    let accepted = ACCEPTED.iter().map(|kind| kind.to_string());
    let mut tally = Tally::of(numbers.chain(accepted).chain(["9, no END".to_string()]));
    let pairs = |(kind, numbers): &(&str, &[u8])| -> Vec<String> {
        numbers.iter().map(|number| format!("{number} {kind}")).collect()
    };
    tally.group(BY_CARD, REFUSED.iter().flat_map(pairs));
    tally.group(MNEMONICS, mnemonics().map(String::from));
    tally.group(BYTES, operation_bytes().map(|byte| format!("{byte:02X}")));
    tally.group(FORMS, forms());
    tally.group(DATA, data_forms());
    tally
}

/// The operation bytes that there are.
fn operation_bytes() -> impl Iterator<Item = u8> {
    let exists = |byte: &u8| {
        let low = byte & 15;
        match byte >> 4 {
            0..=2 | 4..=6 | 8..=10 => matches!(low, 4 | 6..=8 | 10..=15),
            3 | 7 | 11 => matches!(low, 0 | 1 | 4..=6 | 8..=13),
            12..=14 => low <= 2,
            _ => low == 2,
        }
    };
    (0..=255).filter(exists)
}

/// Every form of every kind of instruction, an expression written E.
fn forms() -> Vec<String> {
    let operands = ["E", "E(E)", "E(E,E)", "E(,E)"];
    let mut forms = Vec::new();
    for first in operands {
        for second in operands {
            let items = [first, second].iter().filter(|form| form.contains("(E")).count();
            let form = format!("{first},{second}");
            let kinds: &[&str] = match items {
                0 => &["two lengths", "one length", "extended move"],
                1 => &["two lengths", "one length", "MVX"],
                _ => &["two lengths"],
            };
            forms.extend(kinds.iter().map(|kind| format!("{kind} {form}")));
        }
    }
    for form in ["E", "E(E)", "E(,E)"] {
        let kinds = ["one address", "branch", "LA"];
        forms.extend(kinds.map(|kind| format!("{kind} {form},E")));
        forms.push(format!("extended branch {form}"));
    }
    forms.extend(["JC E,E".to_string(), "extended jump E".to_string()]);
    forms
}

/// DC and DS with each type, with and without copies and length.
fn data_forms() -> Vec<String> {
    let mut forms = Vec::new();
    for operation in ["DC", "DS"] {
        for kind in ["C", "X", "D", "A"] {
            for copies in ["", "n"] {
                for length in ["", "Lm"] {
                    forms.push(format!("{operation} {copies}{kind}{length}"));
                }
            }
        }
    }
    forms
}

/// Counts all that the deck and its answer meet.
pub fn meet(tally: &mut Tally, made: &Made, answer: &Result<Assembled, Refusal>) {
    match answer {
        Ok(assembled) => meet_accepted(tally, made, assembled),
        Err(Refusal { number, card }) => {
            tally.meet(&format!("{number:2}"));
            if *number == 9 && *card == 0 {
                tally.meet("9, no END");
            }
            if let Some((_, kind, _)) = statement(made, *card) {
                tally.meet_in(BY_CARD, &format!("{number} {kind}"));
            }
        }
    }
}

fn meet_accepted(tally: &mut Tally, made: &Made, assembled: &Assembled) {
    let book = Book::read(&assembled.book).expect("the model makes books");
    let field = book.records.iter().any(|record| !record.offsets.is_empty());
    let holds =
        [true, book.entry.is_some(), field, assembled.book.len() == made.out, made.work > WORK];
    for (kind, holds) in ACCEPTED.iter().zip(holds) {
        if holds {
            tally.meet(kind);
        }
    }
    for card in 1..=made.source.len() / made.width as usize {
        let Some((mnemonic, kind, operand)) = statement(made, card as u16) else { continue };
        tally.meet_in(MNEMONICS, mnemonic);
        if kind == "DC" || kind == "DS" {
            tally.meet_in(DATA, &format!("{kind} {}", data_form(operand)));
        } else {
            tally.meet_in(FORMS, &format!("{kind} {}", form(operand)));
        }
    }
    for record in book.records {
        if statement(made, record.card).is_some_and(|(_, kind, _)| kind != "DC") {
            tally.meet_in(BYTES, &format!("{:02X}", record.text[0]));
        }
    }
}

/// The mnemonic, the kind and the operand of a card, if it has a known operation.
fn statement(made: &Made, card: u16) -> Option<(&str, &'static str, &[u8])> {
    let columns = statement_columns(made.width)?;
    let start = usize::from(card).checked_sub(1)? * made.width as usize;
    let entries = entries(made.source.get(start..start + columns)?)?;
    let mnemonic = entries.operation?;
    let kind = kind(Operation::find(mnemonic)?);
    Some((std::str::from_utf8(mnemonic).ok()?, kind, entries.operand.unwrap_or(b"")))
}

fn kind(operation: Operation) -> &'static str {
    match operation {
        Operation::Start => "START",
        Operation::Equ => "EQU",
        Operation::Org => "ORG",
        Operation::Dc => "DC",
        Operation::Ds => "DS",
        Operation::Using => "USING",
        Operation::Drop => "DROP",
        Operation::End => "END",
        Operation::TwoAddress(_, Item::Lengths) => "two lengths",
        Operation::TwoAddress(_, Item::Length) => "one length",
        Operation::TwoAddress(_, Item::Half) => "MVX",
        Operation::TwoAddress(_, Item::Given(_)) => "extended move",
        Operation::OneAddress(_) => "one address",
        Operation::Branch(_, Q::Written) => "branch",
        Operation::Branch(_, Q::Register) => "LA",
        Operation::Branch(_, Q::Given(_)) => "extended branch",
        Operation::Jump(Q::Written) => "JC",
        Operation::Jump(_) => "extended jump",
    }
}

/// The form of an instruction's operand, which is right: each expression becomes E.
fn form(operand: &[u8]) -> String {
    let mut form = String::new();
    let mut quoted = false;
    for &byte in operand {
        quoted ^= byte == b'\'';
        match byte {
            b'(' | b')' | b',' if !quoted => form.push(char::from(byte)),
            _ if form.ends_with('E') => {}
            _ => form.push('E'),
        }
    }
    form
}

/// The form of the operand of DC or DS, which is right: copies become n, the length m.
fn data_form(operand: &[u8]) -> String {
    let digits = operand.iter().take_while(|byte| byte.is_ascii_digit()).count();
    let copies = if digits > 0 { "n" } else { "" };
    let kind = char::from(operand[digits]);
    let length = if operand.get(digits + 1) == Some(&b'L') { "Lm" } else { "" };
    format!("{copies}{kind}{length}")
}
