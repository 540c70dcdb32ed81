//! Compares `mersclund_load` with the model.

use crate::caller::{wrong_byte, Call, Caller, Program};
use crate::cases::{hex, made, Made};
use crate::damage::DAMAGES;
use crate::random::Random;
use crate::tally::Tally;
use model::book::{Book, ADDRESSES};
use model::load::{load, sum_over, Loaded};
use model::packed::packed_load;
use model::Refusal;
use std::io;

/// Answers that a run must meet, beside a refusal 50 for each way of breaking a book.
const KINDS: [&str; 13] = [
    "accepted",
    "accepted, with an entry",
    "accepted, with a moved field",
    "accepted, with an overlaid text",
    "accepted, with an overlaid moved field",
    "accepted, storage longer than 65,536",
    "50",
    "51",
    "51, by the limit of 65,536 alone",
    "51, where 52 would hold too",
    "52",
    "52, a field",
    "52, the entry alone",
];

/// Compares the cases of this seed, and says whether all is well.
pub fn run(program: &Program, seed: u64, count: u64) -> io::Result<bool> {
    let broken = DAMAGES.iter().map(|(name, _)| format!("50, {name}"));
    let mut tally = Tally::of(KINDS.map(String::from).into_iter().chain(broken));
    let mut caller = Caller::start(program)?;
    let pool = Random::of(seed, u64::MAX).bytes(80_000);
    for number in 0..count {
        let made = made(seed, number);
        let from = number as usize * 131 % (pool.len() - made.storage);
        let before = &pool[from..from + made.storage];
        let mut wanted = before.to_vec();
        let answer = load(&made.book, made.displacement, &mut wanted);
        meet(&mut tally, &made, answer);
        let buffers = [&made.book[..], before, &[]];
        let got = caller.call(Call::Load, u32::from(made.displacement), buffers);
        let ended = got.is_err();
        let difference = difference(&made, answer, &wanted, got);
        tally.compare(difference.map(|what| described(seed, number, &made, &what)));
        if ended {
            break;
        }
    }
    Ok(tally.report() & caller.stop()?)
}

/// Says in what the library's answer or a lent byte differs from the model's.
fn difference(
    made: &Made,
    answer: Result<Loaded, Refusal>,
    wanted: &[u8],
    got: io::Result<(u64, Vec<u8>)>,
) -> Option<String> {
    let packed = packed_load(&answer);
    let model = format!("model {answer:?} {packed:016X}");
    let (got, bytes) = match got {
        Err(error) => return Some(format!("{model}, the caller failed: {error}")),
        Ok(got) => got,
    };
    let answers = format!("{model}, library {got:016X}");
    let buffers = [&made.book[..], wanted, &[]];
    match wrong_byte(&bytes, buffers, ["book", "storage", "end"]) {
        Some(place) => Some(format!("{answers}, wrong: {place}")),
        None => (got != packed).then_some(answers),
    }
}

fn described(seed: u64, number: u64, made: &Made, what: &str) -> String {
    let book = hex(&made.book);
    let Made { displacement, storage, damage, .. } = made;
    let damage = damage.unwrap_or("none");
    format!(
        "seed {seed} number {number}: displacement {displacement}, storage {storage}, \
         damage: {damage}\n  {what}\n  book {book}"
    )
}

/// Counts every kind that the case belongs to.
fn meet(tally: &mut Tally, made: &Made, answer: Result<Loaded, Refusal>) {
    let Some(book) = Book::read(&made.book) else {
        tally.meet("50");
        return tally.meet(&format!("50, {}", made.damage.expect("only broken books are 50")));
    };
    match answer {
        Ok(loaded) => meet_accepted(tally, made, &book, loaded),
        Err(refusal) => meet_refused(tally, made, &book, refusal),
    }
}

fn meet_accepted(tally: &mut Tally, made: &Made, book: &Book, loaded: Loaded) {
    let moved = made.displacement > 0 && book.records.iter().any(|r| !r.offsets.is_empty());
    let (text, field) = overlaid(book);
    for (holds, kind) in [
        (true, "accepted"),
        (loaded.entry.is_some(), "accepted, with an entry"),
        (moved, "accepted, with a moved field"),
        (text, "accepted, with an overlaid text"),
        (field && made.displacement > 0, "accepted, with an overlaid moved field"),
        (made.storage > ADDRESSES, "accepted, storage longer than 65,536"),
    ] {
        if holds {
            tally.meet(kind);
        }
    }
}

fn meet_refused(tally: &mut Tally, made: &Made, book: &Book, refusal: Refusal) {
    let Refusal { number, card } = refusal;
    let over = sum_over(book, made.displacement).is_some();
    let furthest = book.records.iter().map(|r| usize::from(r.address) + r.text.len()).max();
    let inside = furthest.unwrap_or(0) + usize::from(made.displacement) <= made.storage;
    for (holds, kind) in [
        (number == 51, "51"),
        (number == 51 && inside, "51, by the limit of 65,536 alone"),
        (number == 51 && over, "51, where 52 would hold too"),
        (number == 52, "52"),
        (number == 52 && card > 0, "52, a field"),
        (number == 52 && card == 0, "52, the entry alone"),
    ] {
        if holds {
            tally.meet(kind);
        }
    }
}

/// Says whether a later record overlays some text, and whether it overlays a field.
fn overlaid(book: &Book) -> (bool, bool) {
    let mut later = vec![false; ADDRESSES];
    let (mut text, mut field) = (false, false);
    for record in book.records.iter().rev() {
        let start = usize::from(record.address);
        let bytes = &mut later[start..start + record.text.len()];
        text |= bytes.contains(&true);
        field |= record.offsets.iter().any(|&o| {
            let at = usize::from(o);
            bytes[at] || bytes[at + 1]
        });
        bytes.fill(true);
    }
    (text, field)
}
