//! Generated decks, by seed and number: most of them nearly right.

mod data;
mod draft;
mod expressions;
mod limits;
mod operands;
mod programs;
mod spoil;

use crate::random::Random;
use draft::Draft;
pub use limits::limits;
use model::assemble::{assemble, WORK};
pub use operands::mnemonics;
use spoil::SPOILS;

/// What one assembly takes, but for the bytes that work area and output hold before.
#[derive(Clone)]
pub struct Made {
    pub width: u32,
    pub source: Vec<u8>,
    pub work: usize,
    pub out: usize,
    /// How the deck was spoiled.
    pub spoiled: Vec<&'static str>,
}

/// The deck with this number.
pub fn made(seed: u64, number: u64) -> Made {
    let random = &mut Random::of(seed, number);
    let mut draft = programs::good(random);
    let spoils = random.pick(&[0, 0, 0, 1, 1, 1, 1, 1, 2, 3]);
    let mut spoiled = Vec::new();
    for _ in 0..spoils {
        if draft.cards.iter().any(|card| card.whole.is_none()) {
            let (name, spoil) = random.weighted(&SPOILS);
            spoil(random, &mut draft);
            spoiled.push(name);
        }
    }
    let mut made = lend(random, &draft, spoiled);
    if random.one_in(24) {
        spoil_byte(random, &draft, &mut made);
    }
    if random.one_in(24) {
        spoil_lengths(random, &mut made);
    }
    made
}

/// The punched deck with a work area and an output, of which some are just long enough.
fn lend(random: &mut Random, draft: &Draft, spoiled: Vec<&'static str>) -> Made {
    let source = draft.punched().concat();
    let width = draft.width as u32;
    let book = assemble(width, &source, WORK, usize::MAX).map_or(0, |made| made.book.len());
    let more = random.within(0..=200);
    let out = random.pick(&[book, book + 1, book + more, book + more]);
    let work = WORK + random.pick(&[0, 0, 0, 1, 64, 808]);
    Made { width, source, work, out, spoiled }
}

/// Puts a byte that is not accepted, or any byte, somewhere on a card.
fn spoil_byte(random: &mut Random, draft: &Draft, made: &mut Made) {
    let cards = made.source.len() / draft.width;
    if cards > 0 {
        let bad = random.pick(b"a[]{}~`^\\z\x00\x09\x0A\x1F\x7F\x80\xC1\xFF");
        let any = random.byte();
        let card = random.below(cards);
        let last = draft.columns() - 1;
        let column = random.pick(&[0, last, last + 1]);
        let column = if random.one_in(2) { column } else { random.below(draft.width) };
        made.source[card * draft.width + column] = random.pick(&[bad, bad, any]);
        made.spoiled.push("a byte");
    }
}

/// Makes a lent length, or the width, wrong.
fn spoil_lengths(random: &mut Random, made: &mut Made) {
    let any = random.next() as u32;
    let width = made.width;
    match random.below(8) {
        0 => made.width = random.pick(&[0, 1, 79, 81, 95, 97, 160, width + 65_536, any]),
        1 => made.width = 176 - width,
        2 => made
            .source
            .truncate(made.source.len() - random.below(width as usize).min(made.source.len())),
        3 => made.source.extend(vec![b' '; random.within(1..=96)]),
        4 => made.work = random.pick(&[0, 1, 4096, WORK - 1, WORK - 1]),
        5 => made.out = random.pick(&[0, 7, 8, 9]),
        _ => made.out = made.out.saturating_sub(random.within(1..=8)),
    }
    made.spoiled.push("a lent length");
}
