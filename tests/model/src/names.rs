//! The table of names.

use std::collections::HashMap;

/// The most names a source defines.
pub const MOST_NAMES: usize = 512;

/// A value, which moves with the program or does not.
#[derive(Debug, Clone, Copy, PartialEq, Eq)]
pub enum Value {
    Absolute(u16),
    Relocatable(u16),
}

/// What a name stands for.
#[derive(Debug, Clone, Copy)]
pub struct Name {
    pub value: Value,
    pub length: u16,
}

/// The names defined so far.
#[derive(Debug, Default)]
pub struct Names<'a>(HashMap<&'a [u8], Name>);

impl<'a> Names<'a> {
    pub fn get(&self, name: &[u8]) -> Option<Name> {
        self.0.get(name).copied()
    }

    pub fn count(&self) -> usize {
        self.0.len()
    }

    /// The number of refusal, if any, that defining this name would meet.
    pub fn refuse(&self, name: &[u8]) -> Result<(), u8> {
        if self.0.contains_key(name) {
            return Err(16);
        }
        if self.count() == MOST_NAMES {
            return Err(17);
        }
        Ok(())
    }

    pub fn define(&mut self, name: &'a [u8], meaning: Name) {
        self.0.insert(name, meaning);
    }
}
