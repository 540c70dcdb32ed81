//! Compares `mersclund_assemble` with the model on generated decks.

use crate::caller::Program;
use crate::coverage;
use crate::decks::{limits, made, Made};
use crate::library::Library;
use crate::shrink::{readable, shrunk};
use std::io;

/// Compares the decks of this seed and those at the limits, and says whether all is well.
pub fn run(program: &Program, seed: u64, count: u64) -> io::Result<bool> {
    let mut tally = coverage::tally();
    let mut library = Library::start(program, seed)?;
    let limits = limits().into_iter().map(|made| ("a limit".to_string(), made));
    let numbered = |number| (format!("seed {seed} number {number}"), made(seed, number));
    for (name, made) in (0..count).map(numbered).chain(limits) {
        let compared = library.compare(&made);
        coverage::meet(&mut tally, &made, &compared.model);
        let difference = compared.difference.map(|what| {
            let head = format!("{name}, spoiled by: {}", made.spoiled.join(", "));
            // Making a deck smaller takes many calls.
            if tally.prints() {
                head + "\n" + &described(&mut library, made, what)
            } else {
                head
            }
        });
        tally.compare(difference);
        if library.ended {
            break;
        }
    }
    Ok(tally.report() & library.caller.stop()?)
}

/// The difference that the deck, made smaller if that can be, shows, and the deck.
fn described(library: &mut Library, made: Made, what: String) -> String {
    if library.ended {
        return what + &readable(&made);
    }
    let small = shrunk(&made, |deck| library.compare(deck).difference.is_some() && !library.ended);
    library.compare(&small).difference.unwrap_or(what) + &readable(&small)
}
