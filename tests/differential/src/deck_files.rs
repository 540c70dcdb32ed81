//! Runs the decks and listings of the files beside the tests through the library.

use crate::caller::Program;
use crate::decks::Made;
use crate::library::Library;
use crate::shrink::readable;
use crate::tally::Tally;
use model::assemble::{Assembled, WORK};
use model::book::Book;
use model::decks::{decks, Deck, Wanted};
use model::listings::{listing, WIDTH};
use model::Refusal;
use std::path::{Path, PathBuf};
use std::{fs, io};

/// Compares every deck of the directory, and says whether all is well.
pub fn run(program: &Program, directory: &Path, seed: u64) -> io::Result<bool> {
    let mut library = Library::start(program, seed)?;
    let mut tally = Tally::of(["decks", "listings"].map(String::from));
    for path in files(directory)? {
        let text = fs::read_to_string(&path)?;
        let named = |error| io::Error::other(format!("{}: {error}", path.display()));
        if path.extension().is_some_and(|extension| extension == "listing") {
            let listing = listing(&text).map_err(named)?;
            let made = lent(WIDTH, listing.source.clone(), WORK, 65_536);
            let difference = difference(&mut library, &made, |answer| match answer {
                Err(refusal) => Some(format!("{refusal:?}")),
                Ok(assembled) => match Book::read(&assembled.book) {
                    None => Some("no book".to_string()),
                    Some(book) => listing.difference(&book),
                },
            });
            tally.meet("listings");
            tally.compare(difference.map(|what| format!("{}: {what}", path.display())));
            continue;
        }
        for deck in decks(&text).map_err(named)? {
            let difference = deck_difference(&mut library, &deck)?;
            tally.meet("decks");
            let place = format!("{}:{}", path.display(), deck.line);
            tally.compare(difference.map(|what| format!("{place}: {what}")));
        }
    }
    Ok(tally.report() & library.caller.stop()?)
}

/// The files with decks or listings, in the order of their names.
fn files(directory: &Path) -> io::Result<Vec<PathBuf>> {
    let paths: io::Result<Vec<PathBuf>> =
        fs::read_dir(directory)?.map(|entry| Ok(entry?.path())).collect();
    let mut paths = paths?;
    paths.retain(|path| {
        path.extension().is_some_and(|extension| extension == "txt" || extension == "listing")
    });
    paths.sort();
    Ok(paths)
}

fn lent(width: u32, source: Vec<u8>, work: usize, out: usize) -> Made {
    Made { width, source, work, out, spoiled: Vec::new() }
}

fn deck_difference(library: &mut Library, deck: &Deck) -> io::Result<Option<String>> {
    let made = lent(deck.width, deck.source.clone(), deck.work, deck.out);
    let mut book = Vec::new();
    let difference = difference(library, &made, |answer| {
        book = answer.as_ref().map_or(Vec::new(), |assembled| assembled.book.clone());
        deck.wanted.difference(answer)
    });
    match &deck.wanted {
        Wanted::Accepted { loaded: Some(loaded), .. } if difference.is_none() => {
            let storage = library.load(&book, loaded.displacement)?;
            Ok(loaded.difference(&storage))
        }
        _ => Ok(difference),
    }
}

/// How the library differs from the model, or its answer from what it must be.
fn difference(
    library: &mut Library,
    made: &Made,
    wrong: impl FnOnce(&Result<Assembled, Refusal>) -> Option<String>,
) -> Option<String> {
    let compared = library.compare(made);
    let what = compared.difference.or_else(|| wrong(compared.library.as_ref()?))?;
    Some(format!("{what}\n{}", readable(made)))
}
