//! The library's assembler, held against the model on one deck.

use crate::caller::{buffer, wrong_byte, Call, Caller, Program};
use crate::decks::Made;
use crate::random::Random;
use model::assemble::{assemble_into, Assembled};
use model::book::ADDRESSES;
use model::packed::packed_assembly;
use model::print::print;
use model::Refusal;
use std::io;

/// The longest noise: no work area or output of a deck is longer.
const NOISE: usize = 1 << 21;
const BUFFERS: [&str; 3] = ["source", "work area", "output"];

/// The library behind the program that calls it, and what lent bytes hold before a call.
pub struct Library {
    pub caller: Caller,
    noise: Vec<u8>,
    /// The program has ended before its time.
    pub ended: bool,
}

type Answer = Result<Assembled, Refusal>;

/// What a comparison showed.
pub struct Compared {
    pub model: Answer,
    /// None where the program has ended.
    pub library: Option<Answer>,
    pub difference: Option<String>,
}

impl Library {
    pub fn start(program: &Program, seed: u64) -> io::Result<Library> {
        let caller = Caller::start(program)?;
        Ok(Library { caller, noise: Random::of(seed, u64::MAX).bytes(NOISE), ended: false })
    }

    /// Assembles the deck with both, and compares the answers and every lent byte.
    pub fn compare(&mut self, made: &Made) -> Compared {
        let Made { width, source, .. } = made;
        let mut work = self.noise[source.len() % 997..][..made.work].to_vec();
        let mut out = self.noise[source.len() % 499..][..made.out].to_vec();
        let got = self.caller.call(Call::Assemble, *width, [source, &work, &out]);
        let model = assemble_into(*width, source, &mut work, &mut out);
        let (packed, lent) = match got {
            Ok(got) => got,
            Err(error) => {
                self.ended = true;
                let difference = Some(format!("the caller failed: {error}\n"));
                return Compared { model, library: None, difference };
            }
        };
        let lengths = [source.len(), work.len(), out.len()];
        let library = answer(packed, buffer(&lent, lengths, 2));
        let wrong = wrong_byte(&lent, [source, &work, &out], BUFFERS);
        let same = packed == packed_assembly(&model) && wrong.is_none();
        let difference = (!same).then(|| {
            let wrong = wrong.map_or(String::new(), |place| format!("  wrong: {place}\n"));
            format!("  model:   {}  library: {packed:016X} {}{wrong}", said(&model), said(&library))
        });
        Compared { model, library: Some(library), difference }
    }

    /// Loads a book with the library into storage of 65,536 bytes, and gives the storage.
    pub fn load(&mut self, book: &[u8], displacement: u16) -> io::Result<Vec<u8>> {
        let storage = &self.noise[..ADDRESSES];
        let buffers = [book, storage, &[]];
        let (_, lent) = self.caller.call(Call::Load, u32::from(displacement), buffers)?;
        Ok(buffer(&lent, [book.len(), ADDRESSES, 0], 1).to_vec())
    }
}

/// The answer taken apart, with the book that the output then holds.
fn answer(packed: u64, out: &[u8]) -> Answer {
    let number = (packed >> 56) as u8;
    if number > 0 {
        return Err(Refusal { number, card: packed as u16 });
    }
    let length = (packed as u32 as usize).min(out.len());
    Ok(Assembled { book: out[..length].to_vec(), names: (packed >> 32) as u16 })
}

/// An answer in words, with the first lines of the book as the printer prints it.
fn said(answer: &Answer) -> String {
    match answer {
        Err(Refusal { number, card }) => format!("refused {number}, card {card}\n"),
        Ok(Assembled { book, names }) => {
            let line = |line: &str| format!("    {line:.150}\n");
            let lines: String = print(book).lines().take(12).map(line).collect();
            format!("accepted, {} bytes, {names} names\n{lines}", book.len())
        }
    }
}
