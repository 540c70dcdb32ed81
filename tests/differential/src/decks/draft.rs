//! Decks as they are drafted: cards with their entries apart, then punched.

use crate::random::Random;

/// A card before it is punched.
#[derive(Clone, Default)]
pub struct Card {
    /// The whole text of a card that is not drafted by its entries, such as a comment.
    pub whole: Option<String>,
    pub name: String,
    pub operation: String,
    pub operand: String,
    pub remark: String,
    /// How many blanks stand before operation, operand and remark.
    pub gaps: [usize; 3],
    /// The operand ends in the last statement column.
    pub to_the_end: bool,
}

/// A name that the deck is planned to define.
#[derive(Clone)]
pub struct Planned {
    pub name: String,
    /// The value, of an absolute name.
    pub absolute: Option<u16>,
    /// The place of its card in the deck.
    pub card: usize,
}

/// A deck before it is punched.
#[derive(Clone)]
pub struct Draft {
    pub width: usize,
    pub cards: Vec<Card>,
    pub names: Vec<Planned>,
    /// What stands in the columns behind the statement, if not blanks.
    pub behind: Option<u64>,
}

impl Card {
    /// A card without operand.
    pub fn of(operation: &str) -> Card {
        Card { operation: operation.to_string(), gaps: [1; 3], ..Card::default() }
    }

    /// A card that is not drafted by its entries.
    pub fn whole(text: &str) -> Card {
        Card { whole: Some(text.to_string()), ..Card::default() }
    }

    /// The text of the statement columns, and perhaps of more.
    fn text(&self, columns: usize) -> String {
        if let Some(whole) = &self.whole {
            return whole.clone();
        }
        let [before_operation, before_operand, before_remark] = self.gaps;
        let blanks = |count: usize| " ".repeat(count);
        let mut text = format!("{}{}{}", self.name, blanks(before_operation), self.operation);
        let least = text.len() + before_operand;
        if self.to_the_end {
            let right = columns.saturating_sub(self.operand.len());
            text += &blanks(right.max(least) - text.len());
        } else {
            text += &blanks(before_operand);
        }
        text += &self.operand;
        if !self.remark.is_empty() && text.len() + before_remark < columns {
            text += &blanks(before_remark);
            text += &self.remark;
            text.truncate(columns);
        }
        text
    }
}

impl Draft {
    /// How many statement columns a card has.
    pub fn columns(&self) -> usize {
        if self.width == 96 {
            87
        } else {
            71
        }
    }

    /// Puts a card before the one at this place.
    pub fn insert(&mut self, at: usize, card: Card) {
        self.cards.insert(at, card);
        self.names.iter_mut().filter(|name| name.card >= at).for_each(|name| name.card += 1);
    }

    /// The place behind START, or the first if there is no START.
    pub fn behind_start(&self) -> usize {
        let start = self.cards.iter().position(|card| card.operation == "START");
        start.map_or(0, |start| start + 1)
    }

    /// The cards, each as long as it is wide.
    pub fn punched(&self) -> Vec<Vec<u8>> {
        let columns = self.columns();
        let mut behind = self.behind.map(|seed| Random::of(seed, 0));
        let punch = |card: &Card| {
            let mut bytes = card.text(columns).into_bytes();
            if let (Some(random), true) = (&mut behind, bytes.len() <= columns) {
                bytes.resize(columns, b' ');
                bytes.extend((columns..self.width).map(|_| sequence_byte(random)));
            }
            bytes.resize(self.width, b' ');
            bytes
        };
        self.cards.iter().map(punch).collect()
    }
}

/// A byte behind the statement columns: anything, but often such as a statement has.
fn sequence_byte(random: &mut Random) -> u8 {
    if random.one_in(3) {
        random.byte()
    } else {
        random.pick(b"0123456789XY*'(,) \xFF\x00\n")
    }
}
