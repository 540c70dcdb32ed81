//! The forms of instructions: what their operands are, from the columns alone.

use crate::expressions::Expression;
use crate::operations::{Item, Operation, Q};
use crate::reader::Reader;

/// An address as it is written: E, E(item), E(item,register) or E(,register).
#[derive(Debug, Clone, Copy)]
pub struct Operand<'a> {
    pub address: Expression<'a>,
    pub item: Option<Expression<'a>>,
    pub register: Option<Expression<'a>>,
}

/// What a lone item in parentheses is.
#[derive(Clone, Copy, PartialEq, Eq)]
enum Lone {
    Item,
    Register,
}

#[derive(Debug, Clone, Copy)]
pub enum Instruction<'a> {
    TwoAddress { low: u8, item: Item, operands: [Operand<'a>; 2] },
    OneAddress { low: u8, operand: Operand<'a>, q: Code<'a> },
    Branch { low: u8, operand: Operand<'a>, q: Code<'a> },
    Jump { target: Expression<'a>, q: Code<'a> },
}

/// A Q code, written or given by the mnemonic.
#[derive(Debug, Clone, Copy)]
pub enum Code<'a> {
    Written(Expression<'a>),
    Register(Expression<'a>),
    Given(u8),
}

impl<'a> Operand<'a> {
    fn read(reader: &mut Reader<'a>, lone: Lone) -> Option<Operand<'a>> {
        let address = Expression::read(reader)?;
        let mut operand = Operand { address, item: None, register: None };
        if !reader.takes(b'(') {
            return Some(operand);
        }
        if reader.takes(b',') {
            operand.register = Some(Expression::read(reader)?);
        } else {
            let first = Expression::read(reader)?;
            if reader.takes(b',') {
                operand.item = Some(first);
                operand.register = Some(Expression::read(reader)?);
            } else if lone == Lone::Register {
                operand.register = Some(first);
            } else {
                operand.item = Some(first);
            }
        }
        reader.needs(b')')?;
        Some(operand)
    }

    /// Takes an operand that has no item.
    fn read_address(reader: &mut Reader<'a>) -> Option<Operand<'a>> {
        Operand::read(reader, Lone::Register).filter(|operand| operand.item.is_none())
    }

    /// The bytes the operand takes.
    fn size(&self) -> u32 {
        if self.register.is_some() {
            1
        } else {
            2
        }
    }
}

impl<'a> Code<'a> {
    fn read(reader: &mut Reader<'a>, q: Q) -> Option<Code<'a>> {
        let mut written = || {
            reader.needs(b',')?;
            Expression::read(reader)
        };
        Some(match q {
            Q::Written => Code::Written(written()?),
            Q::Register => Code::Register(written()?),
            Q::Given(q) => Code::Given(q),
        })
    }
}

impl<'a> Instruction<'a> {
    /// Takes the operands of an instruction; none where their form is wrong.
    pub fn read(operation: Operation, reader: &mut Reader<'a>) -> Option<Instruction<'a>> {
        match operation {
            Operation::TwoAddress(low, item) => {
                let first = Operand::read(reader, Lone::Item)?;
                reader.needs(b',')?;
                let operands = [first, Operand::read(reader, Lone::Item)?];
                items_fit(item, &operands).then_some(Instruction::TwoAddress {
                    low,
                    item,
                    operands,
                })
            }
            Operation::OneAddress(low) => {
                let operand = Operand::read_address(reader)?;
                let q = Code::read(reader, Q::Written)?;
                Some(Instruction::OneAddress { low, operand, q })
            }
            Operation::Branch(low, q) => {
                let operand = Operand::read_address(reader)?;
                let q = Code::read(reader, q)?;
                Some(Instruction::Branch { low, operand, q })
            }
            Operation::Jump(q) => {
                let target = Expression::read(reader)?;
                let q = Code::read(reader, q)?;
                Some(Instruction::Jump { target, q })
            }
            _ => None,
        }
    }

    /// The bytes the instruction takes.
    pub fn size(&self) -> u32 {
        match self {
            Instruction::TwoAddress { operands: [first, second], .. } => {
                2 + first.size() + second.size()
            }
            Instruction::OneAddress { operand, .. } | Instruction::Branch { operand, .. } => {
                2 + operand.size()
            }
            Instruction::Jump { .. } => 3,
        }
    }
}

/// Says whether the items stand on as many operands as they may.
fn items_fit(item: Item, operands: &[Operand; 2]) -> bool {
    let written = operands.iter().filter(|operand| operand.item.is_some()).count();
    match item {
        Item::Lengths => true,
        Item::Length => written <= 1,
        Item::Half => written == 1,
        Item::Given(_) => written == 0,
    }
}
