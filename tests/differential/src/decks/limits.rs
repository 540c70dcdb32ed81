//! Decks at the limits: of cards, names, books and lent lengths, and of what is a mnemonic.

use super::{mnemonics, Made};
use model::assemble::{assemble, WORK};
use std::collections::BTreeSet;

/// All of them, each with what it is for.
pub fn limits() -> Vec<Made> {
    let mut decks = Vec::new();
    for width in [80, 96] {
        decks.extend(most_cards(width));
        decks.extend(most_names(width));
        decks.extend(lent_lengths(width));
    }
    decks.extend(near_mnemonics().iter().map(|mnemonic| {
        deck(80, "a mnemonic or nearly one", &program("", 1, |_| format!(" {mnemonic} 5")))
    }));
    decks
}

/// All that might be taken for a mnemonic: short ones, ends of branches and jumps, and those
/// with one letter changed, left out or put behind.
fn near_mnemonics() -> BTreeSet<String> {
    let letters = "ABCDEFGHIJKLMNOPQRSTUVWXYZ";
    let mut near: BTreeSet<String> = words(letters, 2).collect();
    for first in ["B", "J"] {
        near.extend(words("NOZLHEPMTF", 3).map(|end| format!("{first}{end}")));
    }
    for mnemonic in mnemonics() {
        for at in 0..mnemonic.len() {
            let (before, behind) = (&mnemonic[..at], &mnemonic[at + 1..]);
            near.extend(letters.chars().map(|letter| format!("{before}{letter}{behind}")));
            near.insert(format!("{before}{behind}"));
        }
        near.extend(letters.chars().map(|letter| format!("{mnemonic}{letter}")));
    }
    near
}

/// All words of at most so many of the letters.
fn words(letters: &str, most: usize) -> impl Iterator<Item = String> {
    let mut all = vec![String::new()];
    let mut longest = all.clone();
    for _ in 0..most {
        let append =
            |word: &String| letters.chars().map(|l| format!("{word}{l}")).collect::<Vec<_>>();
        longest = longest.iter().flat_map(append).collect();
        all.extend(longest.clone());
    }
    all.into_iter()
}

fn deck(width: u32, what: &'static str, cards: &[String]) -> Made {
    let punch = |card: &String| {
        let mut bytes = card.clone().into_bytes();
        bytes.resize(width as usize, b' ');
        bytes
    };
    let source: Vec<u8> = cards.iter().flat_map(punch).collect();
    let book = assemble(width, &source, WORK, usize::MAX).map_or(0, |made| made.book.len());
    Made { width, source, work: WORK, out: book + 10, spoiled: vec![what] }
}

/// START, so many cards by number, and END.
fn program(start: &str, count: usize, card: impl Fn(usize) -> String) -> Vec<String> {
    let mut cards = vec![format!("{start} START 0")];
    cards.extend((0..count).map(card));
    cards.push(" END".to_string());
    cards
}

fn most_cards(width: u32) -> Vec<Made> {
    let empty = |i: usize| ["* COMMENT", " DS 0C"][i % 2].to_string();
    let fields = |i: usize| [" DC 128A(P)", " ORG P"][usize::from(i % 200 == 199)].to_string();
    let longest = deck(width, "4,000 cards with the longest texts", &program("P", 3998, fields));
    let exact = Made { out: longest.out - 10, ..longest.clone() };
    let short = Made { out: longest.out - 11, ..longest };
    let over = deck(width, "4,001 cards", &program("", 3999, empty));
    let no_work = Made { work: 0, ..over.clone() };
    let mut not_whole = over.clone();
    not_whole.source.push(b' ');
    vec![
        deck(width, "4,000 cards", &program("", 3998, empty)),
        deck(width, "4,000 cards without END", &program("", 3999, empty)[..4000]),
        deck(width, "5,000 cards", &program("", 4998, empty)),
        exact,
        short,
        over,
        no_work,
        not_whole,
    ]
}

fn most_names(width: u32) -> Vec<Made> {
    let named = |i: usize| match i % 4 {
        0 => format!("N{i} EQU {i}"),
        1 => format!("N{i} DS C"),
        2 => format!("N{i} DC A(N{})", 511 - i),
        _ => format!("N{i} MVC N{},N{}", i - 1, i - 2),
    };
    let again = |i: usize| if i == 512 { "N7 EQU 1".to_string() } else { named(i) };
    let undefined = |i: usize| if i == 512 { " B N512".to_string() } else { named(i) };
    vec![
        deck(width, "512 names", &program("", 512, named)),
        deck(width, "512 names, START's among them", &program("P", 511, named)),
        deck(width, "513 names", &program("", 513, named)),
        deck(width, "513 names, START's among them", &program("P", 512, named)),
        deck(width, "512 names and one of them again", &program("", 513, again)),
        deck(width, "512 names and one undefined", &program("", 513, undefined)),
    ]
}

fn lent_lengths(width: u32) -> Vec<Made> {
    let small = deck(width, "the shortest book", &program("P", 0, |_| String::new()));
    let with = |what, change: fn(&mut Made)| {
        let mut made = Made { spoiled: vec![what], ..small.clone() };
        change(&mut made);
        made
    };
    vec![
        with("no cards", |made| made.source.clear()),
        with("no cards and no output", |made| {
            made.source.clear();
            made.out = 0;
        }),
        with("an output of 8 bytes", |made| made.out = 8),
        with("an output of 7 bytes", |made| made.out = 7),
        with("no output", |made| made.out = 0),
        with("no work area", |made| made.work = 0),
        with("a work area short by one", |made| made.work = WORK - 1),
        with("a long work area", |made| made.work = 3 * WORK),
        with("a byte too few", |made| {
            made.source.pop();
        }),
        with("a byte too many", |made| made.source.push(b' ')),
        with("one byte", |made| made.source.truncate(1)),
        with("a width of 0", |made| made.width = 0),
        with("the largest width", |made| made.width = u32::MAX),
        with("the width and 65,536", |made| made.width += 65_536),
        with("everything wrong", |made| {
            made.width = 81;
            made.work = 0;
            made.out = 0;
        }),
    ]
}
