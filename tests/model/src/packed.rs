//! The one number that a call of the C interface answers.

use crate::assemble::Assembled;
use crate::load::Loaded;
use crate::Refusal;

fn packed_refusal(refusal: &Refusal) -> u64 {
    u64::from(refusal.number) << 56 | u64::from(refusal.card)
}

/// The answer of `mersclund_assemble`.
pub fn packed_assembly(answer: &Result<Assembled, Refusal>) -> u64 {
    match answer {
        Err(refusal) => packed_refusal(refusal),
        Ok(Assembled { book, names }) => u64::from(*names) << 32 | book.len() as u64,
    }
}

/// The answer of `mersclund_load`.
pub fn packed_load(answer: &Result<Loaded, Refusal>) -> u64 {
    match answer {
        Err(refusal) => packed_refusal(refusal),
        Ok(Loaded { stored, entry }) => {
            let entered = entry.map_or(0, |entry| 1 << 16 | u64::from(entry));
            entered << 32 | u64::from(*stored)
        }
    }
}
