//! Holds the proved library and the book printer against the model, on generated decks and
//! books, and on the decks of the files beside the tests.

mod assemble;
mod books;
mod caller;
mod cases;
mod coverage;
mod damage;
mod deck_files;
mod decks;
mod library;
mod load;
mod printer;
mod random;
mod shrink;
mod tally;

use caller::Program;
use std::env;
use std::path::{Path, PathBuf};
use std::process::ExitCode;

const USAGE: &str =
    "usage: differential assemble [--seed N] [--count N] [--under WORDS] [--caller PATH]
       differential decks [--decks PATH] [--under WORDS] [--caller PATH]
       differential load [--seed N] [--count N] [--under WORDS] [--caller PATH]
       differential printer [--seed N] [--count N] [--under WORDS] [--printer PATH]
--under: what runs an x86-64 program here, such as an emulator; none where this is one";

const SEED: u64 = 3;
const ASSEMBLIES: u64 = 20_000;
const LOADS: u64 = 20_000;
const PRINTS: u64 = 300;

struct Options {
    seed: u64,
    count: Option<u64>,
    under: Vec<String>,
    caller: PathBuf,
    printer: PathBuf,
    decks: PathBuf,
}

/// Reads the options behind the first word; none where they are not understood.
fn options(mut words: impl Iterator<Item = String>) -> Option<Options> {
    let here = Path::new(env!("CARGO_MANIFEST_DIR"));
    let target = here.join("../../target");
    let mut options = Options {
        seed: SEED,
        count: None,
        under: Vec::new(),
        caller: target.join("tests/caller"),
        printer: target.join("bin/printer"),
        decks: here.join("../decks"),
    };
    while let Some(word) = words.next() {
        let value = words.next()?;
        match word.as_str() {
            "--seed" => options.seed = value.parse().ok()?,
            "--count" => options.count = Some(value.parse().ok()?),
            "--under" => options.under = value.split_whitespace().map(String::from).collect(),
            "--caller" => options.caller = PathBuf::from(value),
            "--printer" => options.printer = PathBuf::from(value),
            "--decks" => options.decks = PathBuf::from(value),
            _ => return None,
        }
    }
    Some(options)
}

fn main() -> ExitCode {
    let mut words = env::args().skip(1);
    let what = words.next().unwrap_or_default();
    let Some(Options { seed, count, under, caller, printer, decks }) = options(words) else {
        eprintln!("{USAGE}");
        return ExitCode::from(2);
    };
    let caller = Program { under: under.clone(), path: caller };
    let printer = Program { under, path: printer };
    let well = match what.as_str() {
        "assemble" => assemble::run(&caller, seed, count.unwrap_or(ASSEMBLIES)),
        "decks" => deck_files::run(&caller, &decks, seed),
        "load" => load::run(&caller, seed, count.unwrap_or(LOADS)),
        "printer" => Ok(printer::run(&printer, seed, count.unwrap_or(PRINTS))),
        _ => {
            eprintln!("{USAGE}");
            return ExitCode::from(2);
        }
    };
    match well {
        Ok(true) => ExitCode::SUCCESS,
        Ok(false) => ExitCode::FAILURE,
        Err(error) => {
            eprintln!("differential: {error}");
            ExitCode::FAILURE
        }
    }
}
