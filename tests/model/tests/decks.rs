//! The model gives every deck's answer and every printed listing's object code.

use model::assemble::{assemble, WORK};
use model::book::Book;
use model::decks::{decks, Deck};
use model::listings::{listing, WIDTH};
use std::fs;

/// The files of decks whose names end so: name and text.
fn files(ending: &str) -> Vec<(String, String)> {
    let directory = concat!(env!("CARGO_MANIFEST_DIR"), "/../decks");
    let paths = fs::read_dir(directory).unwrap().map(|entry| entry.unwrap().path());
    let files: Vec<_> = paths
        .filter(|path| path.extension().is_some_and(|extension| extension == ending))
        .map(|path| (path.display().to_string(), fs::read_to_string(&path).unwrap()))
        .collect();
    assert!(!files.is_empty(), "no files in {directory}");
    files
}

#[test]
fn decks_give_their_answers() {
    let difference = |deck: &Deck| {
        let answer = assemble(deck.width, &deck.source, deck.work, deck.out);
        deck.wanted.difference(&answer)
    };
    for (name, text) in files("txt") {
        let decks = decks(&text).unwrap();
        let differences: Vec<String> = decks
            .iter()
            .filter_map(|deck| Some(format!("{name}:{}: {}", deck.line, difference(deck)?)))
            .collect();
        assert!(differences.is_empty(), "{}", differences.join("\n"));
    }
}

#[test]
fn listings_give_their_object_code() {
    for (name, text) in files("listing") {
        let listing = listing(&text).unwrap();
        let answer = assemble(WIDTH, &listing.source, WORK, 65_536);
        let assembled = answer.unwrap_or_else(|refusal| panic!("{name}: {refusal:?}"));
        let book = Book::read(&assembled.book).unwrap();
        assert_eq!(listing.difference(&book), None, "{name}");
    }
}
