//! Accepted decks of a given size: every card but START, USING and END uses names all over the deck.

const WIDTH: usize = 80;

/// A number below `n`, the same in every run.
struct Numbers(u64);

impl Numbers {
    fn below(&mut self, n: usize) -> usize {
        self.0 = self.0.wrapping_mul(6364136223846793005).wrapping_add(1442695040888963407);
        ((self.0 >> 33) as usize) % n
    }
}

/// The statement of a card; `some` gives a name that is defined somewhere.
fn statement(kind: usize, mut some: impl FnMut() -> String) -> String {
    match kind {
        0 => format!("MVC {}(2),{}", some(), some()),
        1 => format!("ALC {}+1,{}-1(4)", some(), some()),
        2 => format!("ZAZ {}(5),{}(3)", some(), some()),
        3 => format!("MVI {},C'A'", some()),
        4 => format!("B {}", some()),
        5 => format!("CLI 20(1),{0}-{0}+1", some()),
        6 => format!("DC AL2({}+2)", some()),
        7 => format!("DC AL2({}-{})", some(), some()),
        _ => "DC CL8'LEDGER'".to_owned(),
    }
}

/// So many cards of 80 columns with so many names.
pub fn of(cards: usize, names: usize) -> Vec<u8> {
    let mut numbers = Numbers(cards as u64 * 1000 + names as u64);
    let body = cards - 2;
    let mut source = card("", "START X'0100'");
    for i in 0..body {
        // The names are spread evenly over the cards.
        let named = i * names / body != (i + 1) * names / body;
        let name = if named { format!("N{}", i * names / body) } else { String::new() };
        let kind = numbers.below(9);
        let text = statement(kind, || format!("N{}", numbers.below(names)));
        source.extend(card(&name, &text));
    }
    source.extend(card("", "END"));
    source
}

fn card(name: &str, statement: &str) -> Vec<u8> {
    let mut columns = format!("{name:6} {statement}").into_bytes();
    columns.resize(WIDTH, b' ');
    columns
}
