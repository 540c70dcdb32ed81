//! How often each kind of answer was met, and how many agree.

use std::collections::BTreeMap;

#[derive(Default)]
pub struct Tally {
    met: BTreeMap<String, u64>,
    groups: BTreeMap<&'static str, BTreeMap<String, u64>>,
    agree: u64,
    differ: u64,
}

/// How many differences are printed; the others are only counted.
const PRINTED: u64 = 5;

impl Tally {
    /// A tally of kinds that must all be met.
    pub fn of(kinds: impl IntoIterator<Item = String>) -> Tally {
        let met = kinds.into_iter().map(|kind| (kind, 0)).collect();
        Tally { met, ..Tally::default() }
    }

    pub fn meet(&mut self, kind: &str) {
        *self.met.get_mut(kind).unwrap_or_else(|| panic!("no kind {kind}")) += 1;
    }

    /// Adds a group of kinds that must all be met; only a summary of it is printed.
    pub fn group(&mut self, group: &'static str, kinds: impl IntoIterator<Item = String>) {
        self.groups.insert(group, kinds.into_iter().map(|kind| (kind, 0)).collect());
    }

    /// Counts a kind of a group, if it is one that must be met.
    pub fn meet_in(&mut self, group: &'static str, kind: &str) {
        let kinds = self.groups.get_mut(group).unwrap_or_else(|| panic!("no group {group}"));
        if let Some(count) = kinds.get_mut(kind) {
            *count += 1;
        }
    }

    /// Says whether the next difference will be printed.
    pub fn prints(&self) -> bool {
        self.differ < PRINTED
    }

    /// Counts a comparison, and prints the difference if there is one.
    pub fn compare(&mut self, difference: Option<String>) {
        match difference {
            None => self.agree += 1,
            Some(difference) => {
                if self.prints() {
                    println!("{difference}");
                }
                self.differ += 1;
            }
        }
    }

    /// Prints all counts, and says whether all agree and every kind was met.
    pub fn report(&self) -> bool {
        for (kind, count) in &self.met {
            println!("{count:8}  {kind}{}", if *count == 0 { ": NEVER MET" } else { "" });
        }
        for (group, kinds) in &self.groups {
            let never: Vec<&str> = kinds
                .iter()
                .filter(|(_, &count)| count == 0)
                .map(|(kind, _)| kind.as_str())
                .collect();
            let least = kinds.values().min().unwrap_or(&0);
            let met = kinds.len() - never.len();
            println!("{group}: {met} of {} met, each at least {least} times", kinds.len());
            if !never.is_empty() {
                println!("  NEVER MET: {}", never.join("; "));
            }
        }
        println!("differential: {} agree, {} differ", self.agree, self.differ);
        let counts = self.met.values().chain(self.groups.values().flat_map(BTreeMap::values));
        self.differ == 0 && counts.min().is_none_or(|&least| least > 0)
    }
}
