//! Decks that are accepted, or nearly so.

use super::draft::{Card, Draft, Planned};
use super::expressions::Writer;
use super::operands::instruction;
use crate::random::Random;
use model::assemble::{assemble, WORK};
use std::collections::HashSet;

/// How often a refused card is written anew before the deck is left as it is.
const MENDINGS: usize = 40;

/// Names that look like something else.
const ODD_NAMES: [&str; 24] = [
    "A", "B", "C", "D", "L", "X", "DC", "DS", "START", "END", "EQU", "ORG", "J", "MVC", "$", "#",
    "@", "A0", "XX", "BB", "CL1", "AL2", "X1", "ABCDEF",
];
const REMARKS: [&str; 8] =
    ["REMARK", "IT'S", "A B C", "'", "+4", ", X", "(1)", "THE QUICK BROWN FOX; JUMPS * OVER"];
const COMMENTS: [&str; 5] = ["*", "* COMMENT", "*' QUOTE", "* START 0", "*END"];

/// A deck that the model accepts, unless mending it took too long.
pub fn good(random: &mut Random) -> Draft {
    let width = random.pick(&[80, 96]);
    let behind = random.one_in(3).then(|| random.next());
    let many_names = random.one_in(400);
    let operations = if many_names { many_named(random) } else { operations(random) };
    let cards = operations.into_iter().map(|operation| card(random, operation)).collect();
    let mut draft = Draft { width, cards, names: Vec::new(), behind };
    plan_names(random, &mut draft, if many_names { 1 } else { 2 });
    for at in 0..draft.cards.len() {
        write(random, &mut draft, at, 0);
    }
    mend(random, &mut draft);
    draft
}

/// The operations of a deck, empty for a comment.
fn operations(random: &mut Random) -> Vec<&'static str> {
    let count = match random.below(400) {
        0 | 1 => random.within(60..=250),
        2..=40 => random.within(15..=40),
        _ => random.within(0..=12),
    };
    let mut operations = Vec::new();
    if random.one_in(4) {
        operations.extend(vec![""; random.within(1..=2)]);
    }
    operations.push("START");
    for _ in 0..count {
        operations.push(match random.below(32) {
            0 => "",
            1..=3 => "EQU",
            4 => "ORG",
            5..=8 => "DC",
            9..=12 => "DS",
            13 | 14 => "USING",
            15 => "DROP",
            _ => instruction(random),
        });
    }
    operations.push("END");
    operations
}

/// The operations of a deck with about as many names as may be.
fn many_named(random: &mut Random) -> Vec<&'static str> {
    let mut operations = vec!["START"];
    for _ in 0..random.within(508..=514) {
        operations.push(random.pick(&["EQU", "DS", "DC"]));
    }
    operations.push("END");
    operations
}

fn card(random: &mut Random, operation: &str) -> Card {
    let whole = operation.is_empty().then(|| random.pick(&COMMENTS).to_string());
    let remark = if random.one_in(4) { random.pick(&REMARKS) } else { "" };
    let gaps = [0; 3].map(|_| random.pick(&[1, 1, 2, 5]));
    let to_the_end = random.one_in(30);
    let (operation, remark) = (operation.to_string(), remark.to_string());
    Card { whole, operation, remark, gaps, to_the_end, ..Card::default() }
}

/// Names every EQU, no card that must not have a name, and one in so many of the others.
fn plan_names(random: &mut Random, draft: &mut Draft, one_in: usize) {
    let mut taken = HashSet::new();
    for at in 0..draft.cards.len() {
        let operation = draft.cards[at].operation.clone();
        let named = match operation.as_str() {
            "" | "ORG" | "USING" | "DROP" | "END" => false,
            "EQU" => true,
            _ => random.one_in(one_in),
        };
        if !named {
            continue;
        }
        let name = std::iter::repeat_with(|| name(random)).find(|name| !taken.contains(name));
        let name = name.expect("there are enough names");
        taken.insert(name.clone());
        let small = random.within(0..=40) as u16;
        let any = random.next() as u16;
        let value = random.pick(&[0, 1, 2, 255, 256, 65535, small, small, any]);
        let absolute = (operation == "EQU" && random.one_in(2)).then_some(value);
        draft.cards[at].name = name.clone();
        draft.names.push(Planned { name, absolute, card: at });
    }
}

/// Any name; many are alike.
pub fn name(random: &mut Random) -> String {
    let first = b"ABCXZ$#@";
    let next = b"ABXYZ019$#@";
    match random.below(4) {
        0 => random.pick(&ODD_NAMES).to_string(),
        1 => format!("NAMES{}", char::from(random.pick(next))),
        _ => {
            let first = char::from(random.pick(first));
            let rest = random.within(0..=5);
            let rest: String = (0..rest).map(|_| char::from(random.pick(next))).collect();
            format!("{first}{rest}")
        }
    }
}

/// Writes the operand of a card, with something wrong once in `wild` times.
pub fn write(random: &mut Random, draft: &mut Draft, at: usize, wild: usize) {
    let card = &mut draft.cards[at];
    if card.whole.is_some() {
        return;
    }
    let earlier = matches!(card.operation.as_str(), "EQU" | "ORG");
    let mut writer = Writer { random, names: &draft.names, at, earlier, wild };
    card.operand = writer.operand(&card.operation);
    if card.operand.is_empty() && !card.remark.is_empty() {
        card.operand = ",".to_string();
    }
}

/// Writes refused cards anew until the deck is accepted.
fn mend(random: &mut Random, draft: &mut Draft) {
    for _ in 0..MENDINGS {
        let source = draft.punched().concat();
        match assemble(draft.width as u32, &source, WORK, usize::MAX) {
            Err(refusal) if refusal.card > 0 => {
                write(random, draft, usize::from(refusal.card) - 1, 0);
            }
            _ => return,
        }
    }
}
