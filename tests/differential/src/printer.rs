//! Compares the book printer with the model, feeding it whole inputs and inputs in pieces.

use crate::caller::Program;
use crate::cases::{hex, made};
use crate::random::Random;
use crate::tally::Tally;
use model::book::{Book, Record};
use model::print::{print, LONGEST_INPUT};
use std::io::{self, ErrorKind, Write};
use std::process::{ChildStdin, Output, Stdio};
use std::thread;
use std::time::Duration;

const KINDS: [&str; 5] =
    ["printed", "printed, 65,536 bytes", "refused 50", "refused 50, no bytes", "refused 57"];

/// Compares what the program prints, and says whether all is well.
pub fn run(program: &Program, seed: u64, count: u64) -> bool {
    let mut tally = Tally::of(KINDS.map(String::from));
    let random = &mut Random::of(seed, u64::MAX);
    let made = (0..count).map(|number| made(seed, number).book);
    let inputs: Vec<Vec<u8>> = limits(random).into_iter().chain(made).collect();
    for (number, input) in inputs.iter().enumerate() {
        let wanted = print(input);
        tally.meet(kind(input, &wanted));
        let pieces = pieces(random, input);
        let pause = Duration::from_micros(if random.one_in(8) { 20_000 } else { 200 });
        let difference = match printed(program, &pieces, pause) {
            Err(error) => Some(error.to_string()),
            Ok(output) => difference(&output, &wanted),
        };
        tally.compare(difference.map(|what| {
            let (length, pieces, input) = (input.len(), pieces.len(), hex(input));
            format!(
                "seed {seed} input {number}: {length} bytes in {pieces} pieces\n  {what}\n  \
                 input {input}"
            )
        }));
    }
    tally.report()
}

/// Inputs at the limits: no bytes, and books and noise of about 65,536 bytes.
fn limits(random: &mut Random) -> Vec<Vec<u8>> {
    let mut inputs = vec![Vec::new()];
    for length in [LONGEST_INPUT - 1, LONGEST_INPUT, LONGEST_INPUT + 1, 3 * LONGEST_INPUT] {
        inputs.push(book_of(random, length));
        inputs.push(random.bytes(length));
    }
    inputs
}

/// A book that keeps the layout and is so many bytes long; a record takes 8 to 263 here.
fn book_of(random: &mut Random, length: usize) -> Vec<u8> {
    let mut book = Book::default();
    let mut left = length - 8;
    while left > 0 {
        let size = if left <= 263 { left } else { random.within(8..=263).min(left - 8) };
        let card = book.records.len() as u16 + 1;
        let text = random.bytes(size - 7);
        book.records.push(Record { card, address: 0, offsets: Vec::new(), text });
        left -= size;
    }
    book.bytes()
}

fn kind(input: &[u8], wanted: &str) -> &'static str {
    match wanted {
        "REFUSED 57\n" => "refused 57",
        "REFUSED 50\n" if input.is_empty() => "refused 50, no bytes",
        "REFUSED 50\n" => "refused 50",
        _ if input.len() == LONGEST_INPUT => "printed, 65,536 bytes",
        _ => "printed",
    }
}

/// The input in one piece or several, some of a single byte.
fn pieces<'a>(random: &mut Random, mut input: &'a [u8]) -> Vec<&'a [u8]> {
    let mut pieces = Vec::new();
    for _ in 1..random.pick(&[1, 1, 2, 5, 12]) {
        if input.len() < 2 {
            break;
        }
        let any = random.within(1..=input.len() - 1);
        let few = any.min(9);
        let (piece, rest) = input.split_at(random.pick(&[1, few, any]));
        pieces.push(piece);
        input = rest;
    }
    pieces.push(input);
    pieces
}

/// Runs the program on the pieces, with a pause between them.
fn printed(program: &Program, pieces: &[&[u8]], pause: Duration) -> io::Result<Output> {
    let mut child = program.command().stderr(Stdio::piped()).spawn()?;
    let input = child.stdin.take().expect("standard input is a pipe");
    thread::scope(|scope| {
        let feeder = scope.spawn(move || feed(input, pieces, pause));
        let output = child.wait_with_output()?;
        feeder.join().expect("feeding does not panic")?;
        Ok(output)
    })
}

/// Writes the pieces, each after a pause, so that a read may end with a piece.
fn feed(mut input: ChildStdin, pieces: &[&[u8]], pause: Duration) -> io::Result<()> {
    for (i, piece) in pieces.iter().enumerate() {
        if i > 0 {
            thread::sleep(pause);
        }
        match input.write_all(piece).and_then(|()| input.flush()) {
            // A printer that has refused need not read on.
            Err(error) if error.kind() == ErrorKind::BrokenPipe => return Ok(()),
            written => written?,
        }
    }
    Ok(())
}

fn difference(output: &Output, wanted: &str) -> Option<String> {
    if !output.status.success() {
        return Some(output.status.to_string());
    }
    if !output.stderr.is_empty() {
        return Some(format!("wrote {} bytes to standard error", output.stderr.len()));
    }
    let (got, wanted) = (&output.stdout, wanted.as_bytes());
    let at = (0..got.len().max(wanted.len())).find(|&at| got.get(at) != wanted.get(at))?;
    let around = |bytes: &[u8]| {
        let from = at.saturating_sub(20).min(bytes.len());
        let to = (at + 20).min(bytes.len());
        String::from_utf8_lossy(&bytes[from..to]).into_owned()
    };
    Some(format!("byte {at}: model {:?}, printer {:?}", around(wanted), around(got)))
}
