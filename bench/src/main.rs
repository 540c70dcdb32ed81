//! Times the proved library and the model on the same decks, in one run.

mod deck;
mod library;

use model::assemble::{assemble, assemble_into, WORK};
use model::packed::packed_assembly;
use std::time::Instant;

const OUT: usize = 1 << 20;
const RUNS: usize = 41;
const CARDS: [usize; 4] = [400, 1000, 2000, 4000];
const NAMES: [usize; 4] = [8, 64, 256, 512];

/// The middle one of the times that `RUNS` calls took, in microseconds.
fn middle(mut call: impl FnMut()) -> f64 {
    let mut times: Vec<f64> = (0..RUNS)
        .map(|_| {
            let start = Instant::now();
            call();
            start.elapsed().as_secs_f64() * 1e6
        })
        .collect();
    times.sort_by(f64::total_cmp);
    times[RUNS / 2]
}

/// The library's and the model's time for a deck; both must make the same book.
fn compare(cards: usize, names: usize) -> (f64, f64) {
    let source = deck::of(cards, names);
    let (mut work, mut out) = (vec![0xA5; WORK], vec![0x5A; OUT]);
    let made = assemble(80, &source, WORK, OUT);
    let answer = library::assemble(80, &source, &mut work, &mut out);
    assert_eq!(answer, packed_assembly(&made), "{cards} cards, {names} names: the answers differ");
    let book = made.unwrap_or_else(|no| panic!("refused {} at card {}", no.number, no.card)).book;
    assert_eq!(out[..book.len()], book, "{cards} cards, {names} names: the books differ");

    let library = middle(|| {
        library::assemble(80, &source, &mut work, &mut out);
    });
    let model = middle(|| {
        assemble_into(80, &source, &mut work, &mut out).ok();
    });
    (library, model)
}

fn main() {
    println!("cards names  library us   model us  model/library  library ns/card");
    for cards in CARDS {
        for names in NAMES.into_iter().filter(|names| names + 2 <= cards) {
            let (library, model) = compare(cards, names);
            println!(
                "{cards:5} {names:5} {library:11.0} {model:10.0} {:14.2} {:16.0}",
                model / library,
                library * 1e3 / cards as f64,
            );
        }
    }
}
