//! Making a deck smaller that shows a difference.

use crate::decks::Made;
use model::cards::statement_columns;

/// Longer decks are left as they are, since shrinking them takes long.
const MOST_CARDS: usize = 600;

/// The deck with as many cards left out as can be while it still shows the difference.
pub fn shrunk(made: &Made, mut differs: impl FnMut(&Made) -> bool) -> Made {
    let width = made.width as usize;
    let mut small = made.clone();
    if width == 0
        || !small.source.len().is_multiple_of(width)
        || small.source.len() / width > MOST_CARDS
    {
        return small;
    }
    let mut run = (small.source.len() / width).next_power_of_two();
    while run > 0 {
        let mut card = 0;
        while card * width < small.source.len() {
            let mut less = small.clone();
            let end = ((card + run) * width).min(less.source.len());
            less.source.drain(card * width..end);
            if differs(&less) {
                small = less;
            } else {
                card += run;
            }
        }
        run /= 2;
    }
    small
}

/// How many cards of a deck are printed.
const PRINTED: usize = 40;

/// The deck for a reader: what is lent, and the first cards with their numbers.
pub fn readable(made: &Made) -> String {
    let Made { width, source, work, out, .. } = made;
    let head = format!("  width {width}, {} bytes, work {work}, out {out}\n", source.len());
    let cards = source.chunks((*width as usize).clamp(1, 200));
    let more = cards.len().saturating_sub(PRINTED);
    let line = |(number, card): (usize, &[u8])| {
        let columns = statement_columns(*width).unwrap_or(card.len()).min(card.len());
        let (statement, behind) = card.split_at(columns);
        format!("{number:6} |{}|{}\n", shown(statement), shown(behind))
    };
    let lines: String = (1..).zip(cards).take(PRINTED).map(line).collect();
    let rest = if more > 0 { format!("       and {more} more\n") } else { String::new() };
    head + &lines + &rest
}

/// Bytes as they are printed, without the blanks at the end: what is not ASCII in hex.
fn shown(bytes: &[u8]) -> String {
    let shown = |&byte: &u8| match byte {
        b' '..=b'~' => char::from(byte).to_string(),
        _ => format!("\\x{byte:02X}"),
    };
    let end = bytes.iter().rposition(|&byte| byte != b' ').map_or(0, |last| last + 1);
    bytes[..end].iter().map(shown).collect()
}
