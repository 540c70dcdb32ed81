//! The text that a card makes, and the fields in it.

use crate::names::Value;

/// The bytes of a card, and the offsets of its relocatable fields.
#[derive(Debug, Default)]
pub struct Text {
    pub bytes: Vec<u8>,
    pub offsets: Vec<u8>,
}

/// An operand as the machine has it.
#[derive(Debug, Clone, Copy)]
pub enum Address {
    Direct(Value),
    Indexed { register: u8, displacement: u8 },
}

impl Address {
    /// The mode: 0 direct, 1 or 2 by that register.
    fn mode(self) -> u8 {
        match self {
            Address::Direct(_) => 0,
            Address::Indexed { register, .. } => register,
        }
    }
}

impl Text {
    pub fn two_address(low: u8, q: u8, [first, second]: [Address; 2]) -> Text {
        let high = 4 * first.mode() + second.mode();
        Text::instruction(high, low, q, &[first, second])
    }

    pub fn one_address(low: u8, q: u8, address: Address) -> Text {
        Text::instruction(4 * address.mode() + 3, low, q, &[address])
    }

    pub fn branch(low: u8, q: u8, address: Address) -> Text {
        Text::instruction(12 + address.mode(), low, q, &[address])
    }

    pub fn jump(q: u8, distance: u8) -> Text {
        Text { bytes: vec![0xF2, q, distance], offsets: Vec::new() }
    }

    fn instruction(high: u8, low: u8, q: u8, addresses: &[Address]) -> Text {
        let mut text = Text { bytes: vec![high << 4 | low, q], offsets: Vec::new() };
        for address in addresses {
            match *address {
                Address::Direct(value) => text.field(value),
                Address::Indexed { displacement, .. } => text.bytes.push(displacement),
            }
        }
        text
    }

    /// Appends two bytes, which are listed if the value is relocatable.
    pub fn field(&mut self, value: Value) {
        let (Value::Absolute(bytes) | Value::Relocatable(bytes)) = value;
        if matches!(value, Value::Relocatable(_)) {
            self.offsets.push(self.bytes.len() as u8);
        }
        self.bytes.extend(bytes.to_be_bytes());
    }
}
