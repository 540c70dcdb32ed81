//! Pass two: the values of all operands, and the book.

use crate::book::{Book, Record};
use crate::data::{Constant, Written};
use crate::expressions::{Expression, Valuer};
use crate::names::{Names, Value};
use crate::operands::{Code, Instruction, Operand};
use crate::operations::Item;
use crate::pass_one::{Line, PassOne};
use crate::statements::Statement;
use crate::text::{Address, Text};
use crate::Refusal;

/// Goes over the lines of pass one.
pub fn pass_two(pass_one: &PassOne) -> Result<Book, Refusal> {
    let mut pass = PassTwo { names: &pass_one.names, bases: [None; 2], entry: None };
    let mut records = Vec::with_capacity(pass_one.lines.len());
    for line in &pass_one.lines {
        let card = line.card;
        let text = pass.line(line).map_err(|number| Refusal { number, card })?;
        let Text { bytes: text, offsets } = text;
        if !text.is_empty() {
            records.push(Record { card, address: line.counter as u16, offsets, text });
        }
    }
    Ok(Book { entry: pass.entry, records })
}

/// What pass two knows after some lines.
struct PassTwo<'n, 'a> {
    names: &'n Names<'a>,
    /// The base of each register that has a USING in force.
    bases: [Option<Value>; 2],
    entry: Option<u16>,
}

impl<'n, 'a> PassTwo<'n, 'a> {
    /// The text of one line, or the lowest number of refusal that holds on it.
    fn line(&mut self, line: &Line<'a>) -> Result<Text, u8> {
        let valuer = &mut Valuer::new(self.names, line.counter);
        let mut text = Text::default();
        match line.statement {
            Statement::Start(_) | Statement::Equ(_) | Statement::Org(_) | Statement::Ds(_) => {}
            Statement::Dc(constant) => text = constant_text(valuer, constant),
            Statement::Using { base, register } => {
                let base = valuer.either(base);
                self.set_base(valuer, register, Some(base));
            }
            Statement::Drop(register) => self.set_base(valuer, register, None),
            Statement::End(entry) => self.entry = entry.map(|entry| valuer.relocatable(entry)),
            Statement::Instruction(instruction) => {
                text = self.instruction(valuer, instruction, line.counter);
            }
        }
        valuer.refused()?;
        Ok(text)
    }

    fn set_base(&mut self, valuer: &mut Valuer, register: Expression, base: Option<Value>) {
        if let Some(register) = register_number(valuer, register) {
            self.bases[usize::from(register) - 1] = base;
        }
    }

    /// The instruction's text, which counts only if no refusal is noted.
    fn instruction(&self, valuer: &mut Valuer, instruction: Instruction, counter: u32) -> Text {
        match instruction {
            Instruction::TwoAddress { low, item, operands } => {
                let addresses = operands.map(|operand| self.address(valuer, operand));
                Text::two_address(low, self.two_address_q(valuer, item, operands), addresses)
            }
            Instruction::OneAddress { low, operand, q } => {
                let address = self.address(valuer, operand);
                Text::one_address(low, q_code(valuer, q), address)
            }
            Instruction::Branch { low, operand, q } => {
                let address = self.address(valuer, operand);
                Text::branch(low, q_code(valuer, q), address)
            }
            Instruction::Jump { target, q } => {
                let target = i64::from(valuer.relocatable(target));
                let next = i64::from(counter) + 3;
                Text::jump(q_code(valuer, q), byte(valuer, target - next, 23))
            }
        }
    }

    /// The operand as the machine has it.
    fn address(&self, valuer: &mut Valuer, operand: Operand) -> Address {
        let value = valuer.either(operand.address);
        let Some(register) = operand.register else { return Address::Direct(value) };
        let register = register_number(valuer, register);
        let base = register.and_then(|register| self.bases[usize::from(register) - 1]);
        let displacement = match (value, base) {
            (Value::Absolute(value), _) => byte(valuer, i64::from(value), 23),
            (Value::Relocatable(value), Some(Value::Relocatable(base))) => {
                byte(valuer, i64::from(value) - i64::from(base), 23)
            }
            (Value::Relocatable(_), _) => {
                valuer.refuse(22);
                0
            }
        };
        Address::Indexed { register: register.unwrap_or(0), displacement }
    }

    fn two_address_q(&self, valuer: &mut Valuer, item: Item, operands: [Operand; 2]) -> u8 {
        let [first, second] =
            operands.map(|operand| operand.item.map(|item| valuer.absolute(item)));
        let implied = |operand: &Operand| operand.address.implied_length(self.names);
        let q = match item {
            Item::Given(q) => return q,
            Item::Half => first.or(second).map(i64::from).filter(|half| (0..=3).contains(half)),
            Item::Length => {
                let length = first.or(second).unwrap_or_else(|| implied(&operands[0]));
                Some(i64::from(length) - 1)
            }
            Item::Lengths => two_lengths_q(
                first.unwrap_or_else(|| implied(&operands[0])),
                second.unwrap_or_else(|| implied(&operands[1])),
            ),
        };
        byte(valuer, q.unwrap_or(-1), 21)
    }
}

/// The Q code of two lengths; none where they do not go together.
fn two_lengths_q(first: u16, second: u16) -> Option<i64> {
    let difference = i64::from(first) - i64::from(second);
    let fit = (1..=16).contains(&second) && (0..=15).contains(&difference);
    fit.then(|| 16 * difference + i64::from(second) - 1)
}

fn q_code(valuer: &mut Valuer, q: Code) -> u8 {
    let q = match q {
        Code::Given(q) => return q,
        Code::Written(q) => Some(valuer.absolute(q)),
        Code::Register(q) => Some(valuer.absolute(q)).filter(|q| (1..=2).contains(q)),
    };
    byte(valuer, q.map_or(-1, i64::from), 21)
}

/// The register, 1 or 2; none with refusal 22, or with one of the expression.
fn register_number(valuer: &mut Valuer, register: Expression) -> Option<u8> {
    match valuer.absolute(register) {
        1 => Some(1),
        2 => Some(2),
        _ => {
            valuer.refuse(22);
            None
        }
    }
}

/// The number as a byte; 0 with this refusal if it is none.
fn byte(valuer: &mut Valuer, number: i64, refusal: u8) -> u8 {
    u8::try_from(number).unwrap_or_else(|_| {
        valuer.refuse(refusal);
        0
    })
}

/// All copies of a constant.
fn constant_text(valuer: &mut Valuer, constant: Constant) -> Text {
    let Constant { extent, value } = constant;
    let mut text = Text::default();
    match value {
        Written::Data(data) => {
            text.bytes = data.bytes(extent.length).repeat(extent.copies as usize);
        }
        Written::Address(address) if extent.length == 2 => {
            let value = valuer.either(address);
            (0..extent.copies).for_each(|_| text.field(value));
        }
        Written::Address(address) => {
            let [high, low] = valuer.absolute(address).to_be_bytes();
            let copy: &[u8] = if extent.length == 1 { &[low] } else { &[0, high, low] };
            text.bytes = copy.repeat(extent.copies as usize);
        }
    }
    text
}
