//! Expressions, written so that they have a wanted value or kind.

use super::draft::Planned;
use crate::random::Random;
use std::ops::RangeInclusive;

/// Writes the operand of one card.
pub struct Writer<'a> {
    pub random: &'a mut Random,
    pub names: &'a [Planned],
    /// The place of the card in the deck.
    pub at: usize,
    /// Only names of earlier cards may be used.
    pub earlier: bool,
    /// Once in so many times something is wrong; 0 for never.
    pub wild: usize,
}

/// The characters of quoted text: all that are accepted, apostrophe and blank more often.
const CHARACTERS: &[u8] = b"ABCDEFGHIJKLMNOPQRSTUVWXYZ0123456789 .<(+|&!$*);-/,%_>?:#@'=\"'''   ";

impl Writer<'_> {
    /// Says whether something wrong is to be written here.
    pub fn goes_wild(&mut self) -> bool {
        self.wild > 0 && self.random.one_in(self.wild)
    }

    /// An absolute expression in the range.
    pub fn absolute(&mut self, range: RangeInclusive<usize>) -> String {
        if !self.goes_wild() {
            let value = self.random.near(range);
            return self.number(value);
        }
        match self.random.below(13) {
            0 => self.misformed(),
            1 | 2 => self.relocatable_term(),
            3 | 4 => self.undefined(),
            5 | 6 => self.too_large(),
            7 | 8 => self.number((*range.start() + 65_535) % 65_536),
            _ => self.number((*range.end() + 1) % 65_536),
        }
    }

    /// Something that is no term, or none of the right size.
    pub fn misformed(&mut self) -> String {
        let texts = [
            "000001",
            "65536",
            "X'00001'",
            "X''",
            "X'G'",
            "B'00000000000000001'",
            "B''",
            "B'2'",
            "C'ABC'",
            "C''",
            "C'A",
            "D'1'",
            "ABCDEFG",
            "A.B",
            "-1",
            "(1)",
        ];
        self.random.pick(&texts).to_string()
    }

    /// A relocatable expression.
    pub fn relocatable(&mut self) -> String {
        if self.goes_wild() {
            return self.not_relocatable();
        }
        let anchor = self.relocatable_term();
        let amount = self.random.below(40);
        match self.random.below(10) {
            0..=4 => anchor,
            5 | 6 => format!("{anchor}+{}", self.number(amount)),
            7 => format!("{anchor}-{}", self.term(amount)),
            8 => format!("{}+{anchor}", self.number(amount)),
            _ => {
                let [left, right] = [self.relocatable_term(), self.relocatable_term()];
                let orders =
                    [format!("{anchor}-{left}+{right}"), format!("0-{left}+{anchor}+{right}")];
                orders[self.random.below(2)].clone()
            }
        }
    }

    /// An expression of either kind.
    pub fn either(&mut self) -> String {
        if self.random.one_in(3) {
            let most = self.random.pick(&[40, 300, 65_535]);
            self.absolute(0..=most)
        } else {
            self.relocatable()
        }
    }

    /// Something that stands where a relocatable expression should.
    fn not_relocatable(&mut self) -> String {
        let [one, other] = [self.relocatable_term(), self.relocatable_term()];
        match self.random.below(12) {
            0 => self.undefined(),
            1 => format!("{one}+{}", self.undefined()),
            2 => format!("{one}+{other}"),
            3 => format!("0-{one}"),
            4 => format!("{one}*{}", self.random.below(3)),
            5 => format!("{}*{one}", self.random.below(3)),
            6 => format!("{one}-65535"),
            7 => format!("{one}+65535"),
            8 => self.too_large(),
            9 => format!("{one}+{}", self.too_large()),
            _ => {
                let value = self.random.near(0..=65_535);
                self.number(value)
            }
        }
    }

    /// A value out of range, partial or final.
    fn too_large(&mut self) -> String {
        let texts = [
            "65535+1",
            "0-65535-2",
            "65535*65535",
            "65535*257-65535*256",
            "4096*4096-65535*256",
            "0-4096*4096",
            "65535*256+256-65535*256",
            "0-65535*256-257+65535*256",
            "65535*65535*65535*65535*65535*65535*0",
        ];
        self.random.pick(&texts).to_string()
    }

    fn undefined(&mut self) -> String {
        self.random.pick(&["NOWHER", "@", "ZZ", "X", "A", "C", "B", "Q1"]).to_string()
    }

    /// A name or the counter.
    pub fn relocatable_term(&mut self) -> String {
        let fits =
            |name: &&Planned| name.absolute.is_none() && (!self.earlier || name.card < self.at);
        let names: Vec<&Planned> = self.names.iter().filter(fits).collect();
        if names.is_empty() || self.random.one_in(5) {
            return "*".to_string();
        }
        names[self.random.below(names.len())].name.clone()
    }

    /// An absolute name, if there is one.
    fn absolute_name(&mut self) -> Option<(String, usize)> {
        let fits = |name: &&Planned| !self.earlier || name.card < self.at;
        let names: Vec<(String, usize)> = self
            .names
            .iter()
            .filter(fits)
            .filter_map(|name| Some((name.name.clone(), usize::from(name.absolute?))))
            .collect();
        (!names.is_empty()).then(|| names[self.random.below(names.len())].clone())
    }

    /// An expression with this value, up to 65535.
    pub fn number(&mut self, value: usize) -> String {
        match self.random.below(17) {
            0..=7 => self.term(value),
            8 if self.random.one_in(2) => self.by_largest(value),
            8 => self.term(value),
            9 => self.by_name(value),
            10 | 11 => self.by_product(value),
            12 => {
                let term = self.relocatable_term();
                format!("{term}-{term}+{}", self.term(value))
            }
            13 => {
                let term = self.relocatable_term();
                format!("{}-{term}+{term}", self.term(value))
            }
            14 if value > 0 => format!("0-{}", self.term(65_536 - value)),
            14 => "0-65535-1".to_string(),
            _ => {
                let part = self.random.within(0..=value);
                format!("{}+{}", self.term(part), self.term(value - part))
            }
        }
    }

    /// A sum that goes to an end of the partial range on its way.
    fn by_largest(&mut self, value: usize) -> String {
        let high = "65535*256+255-65535*256-255";
        let low = "0-65535*256-256+65535*256+256";
        format!("{}+{}", self.random.pick(&[high, low]), self.term(value))
    }

    fn by_name(&mut self, value: usize) -> String {
        match self.absolute_name() {
            None => self.term(value),
            Some((name, known)) if known == value => name,
            Some((name, known)) if known < value => format!("{name}+{}", self.term(value - known)),
            Some((name, known)) => format!("{name}-{}", self.term(known - value)),
        }
    }

    fn by_product(&mut self, value: usize) -> String {
        let factor = self.random.within(1..=20);
        let (times, rest) = (value / factor, value % factor);
        let product = format!("{}*{}", self.term(factor), self.term(times));
        match self.random.below(3) {
            0 if rest == 0 => product,
            1 => format!("{rest}+{product}"),
            _ => format!("{product}+{}", self.term(rest)),
        }
    }

    /// One term with this value.
    fn term(&mut self, value: usize) -> String {
        match self.random.below(10) {
            0..=3 => format!("{value}"),
            4 => format!("{value:0width$}", width = self.random.within(1..=5)),
            5 | 6 => format!("X'{value:0width$X}'", width = self.random.within(1..=4)),
            7 => format!("B'{value:0width$b}'", width = self.random.within(1..=16)),
            8 => self
                .absolute_name()
                .filter(|(_, known)| *known == value)
                .map_or(format!("{value}"), |(name, _)| name),
            _ => character_term(value).unwrap_or(format!("X'{value:X}'")),
        }
    }

    /// Quoted text of so many characters.
    pub fn quoted(&mut self, count: usize) -> String {
        let characters = (0..count).map(|_| char::from(self.random.pick(CHARACTERS)));
        characters.map(|c| if c == '\'' { "''".to_string() } else { c.to_string() }).collect()
    }
}

/// A character term with this value, where there is one among the letters and digits.
fn character_term(value: usize) -> Option<String> {
    let character = |code: usize| match code {
        0x40 => Some(" "),
        0x7D => Some("''"),
        0xC1..=0xC9 => "ABCDEFGHI".get(code - 0xC1..code - 0xC0),
        0xD1..=0xD9 => "JKLMNOPQR".get(code - 0xD1..code - 0xD0),
        0xE2..=0xE9 => "STUVWXYZ".get(code - 0xE2..code - 0xE1),
        0xF0..=0xF9 => "0123456789".get(code - 0xF0..code - 0xEF),
        _ => None,
    };
    let low = character(value % 256)?;
    let high = if value < 256 { "" } else { character(value / 256)? };
    Some(format!("C'{high}{low}'"))
}
