//! Operands of every kind of card.

use super::expressions::Writer;
use crate::random::Random;
use model::operations::{Item, Operation, Q};

/// The mnemonics of all instructions by their forms, each with how often it is taken.
const INSTRUCTIONS: [(usize, &[&str]); 10] = [
    (5, &["ZAZ", "AZ", "SZ"]),
    (8, &["ED", "ITC", "MVC", "CLC", "ALC", "SLC"]),
    (4, &["MVX"]),
    (3, &["MZZ", "MZN", "MNZ", "MNN"]),
    (8, &["SNS", "LIO", "ST", "L", "A", "TBN", "TBF", "SBN", "SBF", "MVI", "CLI"]),
    (3, &["BC", "TIO"]),
    (3, &["LA"]),
    (3, &BRANCHES),
    (3, &["JC"]),
    (3, &JUMPS),
];
const BRANCHES: [&str; 19] = [
    "B", "BH", "BL", "BE", "BNH", "BNL", "BNE", "BOZ", "BOL", "BNOZ", "BNOL", "BT", "BF", "BP",
    "BM", "BZ", "BNP", "BNM", "BNZ",
];
const JUMPS: [&str; 19] = [
    "J", "JH", "JL", "JE", "JNH", "JNL", "JNE", "JOZ", "JOL", "JNOZ", "JNOL", "JT", "JF", "JP",
    "JM", "JZ", "JNP", "JNM", "JNZ",
];

/// The mnemonics of all cards.
pub fn mnemonics() -> impl Iterator<Item = &'static str> {
    let instructions = INSTRUCTIONS.iter().flat_map(|(_, mnemonics)| mnemonics.iter().copied());
    ["START", "EQU", "ORG", "DC", "DS", "USING", "DROP", "END"].into_iter().chain(instructions)
}

/// An operation with values for pass two, each kind as often as the others.
pub fn any_kind(random: &mut Random) -> &'static str {
    let (_, instructions) = random.pick(&INSTRUCTIONS);
    let others: &[&str] = &["DC", "USING", "DROP"];
    let kind = if random.one_in(5) { others } else { instructions };
    random.pick(kind)
}

/// Any instruction.
pub fn instruction(random: &mut Random) -> &'static str {
    let mnemonics = random.weighted(&INSTRUCTIONS);
    random.pick(mnemonics)
}

impl Writer<'_> {
    /// The operand of the card with this mnemonic; empty for none.
    pub fn operand(&mut self, mnemonic: &str) -> String {
        match Operation::find(mnemonic.as_bytes()) {
            None => self.either(),
            Some(Operation::Start) => self.start(),
            Some(Operation::Equ) => self.equ(),
            Some(Operation::Org) => self.relocatable(),
            Some(Operation::Dc) => self.constant(),
            Some(Operation::Ds) => self.area(),
            Some(Operation::Using) => format!("{},{}", self.base(), self.absolute(1..=2)),
            Some(Operation::Drop) => self.absolute(1..=2),
            Some(Operation::End) if self.random.one_in(2) => String::new(),
            Some(Operation::End) => self.relocatable(),
            Some(Operation::TwoAddress(_, item)) => self.two_address(item),
            Some(Operation::OneAddress(_)) => self.one_address(Q::Written),
            Some(Operation::Branch(_, q)) => self.one_address(q),
            Some(Operation::Jump(q)) => {
                let target = self.target();
                self.with_q(target, q)
            }
        }
    }

    fn start(&mut self) -> String {
        if self.goes_wild() {
            let terms = ["B'1'", "C'A'", "*", "1+1", "A", "1,2"];
            return if self.random.one_in(2) {
                self.misformed()
            } else {
                self.random.pick(&terms).to_string()
            };
        }
        let any = self.random.within(0..=60_000);
        let start = self.random.pick(&[0, 0, 1, 256, 4096, any]);
        match self.random.below(4) {
            0 => String::new(),
            1 => format!("{start:05}"),
            2 => format!("X'{start:04X}'"),
            _ => format!("{start}"),
        }
    }

    /// The operand of EQU: that of an absolute name has its planned value.
    fn equ(&mut self) -> String {
        let planned = self.names.iter().find(|name| name.card == self.at);
        match planned.and_then(|name| name.absolute) {
            Some(_) if self.goes_wild() => self.absolute(0..=65_535),
            Some(value) => self.number(usize::from(value)),
            None => self.relocatable(),
        }
    }

    /// A base, at times so high that displacements would wrap.
    fn base(&mut self) -> String {
        if !self.random.one_in(10) {
            return self.either();
        }
        let below_the_end = self.random.within(1..=60);
        format!("{}+{}", self.relocatable_term(), 65_536 - below_the_end)
    }

    /// A jump's target: a name, or a place at most 255 bytes behind the next instruction.
    fn target(&mut self) -> String {
        if self.random.one_in(2) {
            return self.relocatable();
        }
        let distance = self.random.near(3..=258);
        let distance = if self.goes_wild() { self.random.pick(&[2, 259, 0]) } else { distance };
        format!("*+{}", self.number(distance))
    }

    fn with_q(&mut self, operand: String, q: Q) -> String {
        match q {
            Q::Written => format!("{operand},{}", self.absolute(0..=255)),
            Q::Register => format!("{operand},{}", self.absolute(1..=2)),
            Q::Given(_) => operand,
        }
    }

    /// An address, E or E(item), or a displacement, E(,register) or E(item,register).
    fn address(&mut self, item: Option<String>, indexed: bool) -> String {
        if !indexed {
            let address = self.either();
            return item.map_or(address.clone(), |item| format!("{address}({item})"));
        }
        let displacement = match self.random.below(4) {
            0 if self.goes_wild() => format!("{}+256", self.relocatable_term()),
            0 | 1 => self.relocatable(),
            _ => self.absolute(0..=255),
        };
        let register = self.absolute(1..=2);
        format!("{displacement}({},{register})", item.unwrap_or_default())
    }

    fn one_address(&mut self, q: Q) -> String {
        let indexed = !self.random.one_in(3);
        let item = self.goes_wild().then(|| "1".to_string());
        let mut operand = self.address(item, indexed);
        if indexed && self.random.one_in(2) {
            operand = operand.replacen("(,", "(", 1);
        }
        self.with_q(operand, q)
    }

    fn two_address(&mut self, item: Item) -> String {
        let items = match item {
            Item::Lengths => self.two_lengths(),
            Item::Length => {
                let length = self.absolute(1..=256);
                let places = [[None, None], [Some(length.clone()), None], [None, Some(length)]];
                places[self.random.below(3)].clone()
            }
            Item::Half => {
                let half = self.absolute(0..=3);
                let places = [[Some(half.clone()), None], [None, Some(half)]];
                places[self.random.below(2)].clone()
            }
            Item::Given(_) => [None, None],
        };
        let [first, second] = if self.goes_wild() {
            [(); 2].map(|()| self.random.one_in(2).then(|| "1".to_string()))
        } else {
            items
        };
        let [one, other] = [self.random.one_in(2), self.random.one_in(2)];
        format!("{},{}", self.address(first, one), self.address(second, other))
    }

    /// The lengths of a card with two of them, each written or left to be implied.
    fn two_lengths(&mut self) -> [Option<String>; 2] {
        let second = self.random.near(1..=16);
        if self.goes_wild() {
            let wrong = [[17, 17], [32, 17], [second + 16, second], [second - 1, second], [0, 0]];
            return self.random.pick(&wrong).map(|length| Some(length.to_string()));
        }
        let first = second + self.random.near(0..=15);
        let lengths = [self.absolute(first..=first), self.absolute(second..=second)];
        lengths.map(|length| (!self.random.one_in(3)).then_some(length))
    }
}
