//! The cases of a run: good books and broken ones, by seed and number.

use crate::books::{self, Case};
use crate::damage::DAMAGES;
use crate::random::Random;

/// The bytes of a book to load, the displacement and the length of storage.
pub struct Made {
    pub book: Vec<u8>,
    pub displacement: u16,
    pub storage: usize,
    /// How the book was broken, if it was.
    pub damage: Option<&'static str>,
}

/// The case with this number.
pub fn made(seed: u64, number: u64) -> Made {
    let random = &mut Random::of(seed, number);
    let damage = random.one_in(2).then(|| random.pick(&DAMAGES));
    let least_records = if damage.is_some() { 2 } else { 0 };
    let Case { book, displacement, storage } = books::good(random, least_records);
    let book = match damage {
        None => book.bytes(),
        Some((_, broken)) => broken(random, book),
    };
    Made { book, displacement, storage, damage: damage.map(|(name, _)| name) }
}

/// The bytes in hex digits.
pub fn hex(bytes: &[u8]) -> String {
    bytes.iter().map(|byte| format!("{byte:02X}")).collect()
}
