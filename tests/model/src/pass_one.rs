//! Pass one: the form of every card, the names, and where each card's bytes go.

use crate::book::ADDRESSES;
use crate::cards::{entries, is_name, Entries};
use crate::data::Extent;
use crate::expressions::Valuer;
use crate::letters::accepted;
use crate::names::{Name, Names, Value};
use crate::operations::Operation;
use crate::statements::Statement;
use crate::Refusal;

/// A statement, its card and the counter at the start of it.
#[derive(Debug)]
pub struct Line<'a> {
    pub card: u16,
    pub counter: u32,
    pub statement: Statement<'a>,
}

/// What pass one knows after some cards.
#[derive(Debug, Default)]
pub struct PassOne<'a> {
    pub names: Names<'a>,
    pub lines: Vec<Line<'a>>,
    counter: u32,
    started: bool,
    ended: bool,
}

/// Goes over the statement columns of all cards.
pub fn pass_one<'a>(
    cards: impl ExactSizeIterator<Item = &'a [u8]>,
) -> Result<PassOne<'a>, Refusal> {
    let lines = Vec::with_capacity(cards.len());
    let mut pass = PassOne { lines, ..PassOne::default() };
    for (card, columns) in (1..).zip(cards) {
        pass.card(card, columns).map_err(|number| Refusal { number, card })?;
    }
    if pass.ended {
        Ok(pass)
    } else {
        Err(Refusal { number: 9, card: 0 })
    }
}

impl<'a> PassOne<'a> {
    /// Takes one card, or gives the lowest number of refusal that holds on it.
    fn card(&mut self, card: u16, columns: &'a [u8]) -> Result<(), u8> {
        refuse(9, self.ended)?;
        refuse(10, !columns.iter().all(|&byte| accepted(byte)))?;
        let Some(Entries { name, operation, operand }) = entries(columns) else { return Ok(()) };
        refuse(11, name.is_some_and(|name| !is_name(name)))?;
        let operation = operation.and_then(Operation::find).ok_or(12)?;
        refuse(13, self.started == (operation == Operation::Start))?;
        let name_wrong =
            if name.is_some() { operation.forbids_name() } else { operation.needs_name() };
        refuse(14, name_wrong)?;
        let statement = Statement::read(operation, operand).ok_or(15)?;
        if let Some(name) = name {
            self.names.refuse(name)?;
        }
        let (meaning, counter) = self.outcome(&statement, name.is_some())?;
        if let (Some(name), Some(meaning)) = (name, meaning) {
            self.names.define(name, meaning);
        }
        self.lines.push(Line { card, counter: self.counter, statement });
        self.counter = counter;
        self.started = true;
        self.ended = operation == Operation::End;
        Ok(())
    }

    /// What the card's name, if it has one, stands for, and the counter behind the card.
    fn outcome(&self, statement: &Statement, named: bool) -> Result<(Option<Name>, u32), u8> {
        let mut valuer = Valuer::new(&self.names, self.counter);
        match statement {
            Statement::Start(start) => {
                let value = Value::Relocatable(*start);
                Ok((Some(Name { value, length: 1 }), u32::from(*start)))
            }
            Statement::Equ(operand) => {
                let value = valuer.either(*operand);
                valuer.refused()?;
                Ok((Some(Name { value, length: 1 }), self.counter))
            }
            Statement::Org(operand) => {
                let counter = valuer.relocatable(*operand);
                valuer.refused()?;
                Ok((None, u32::from(counter)))
            }
            Statement::Dc(constant) => self.data(&constant.extent, constant.fits(), named),
            Statement::Ds(area) => self.data(area, area.area_fits(), named),
            Statement::Instruction(instruction) => {
                let size = instruction.size();
                let name = self.name(named, 0, size)?;
                Ok((name, self.behind(u64::from(size))?))
            }
            Statement::Using { .. } | Statement::Drop(_) | Statement::End(_) => {
                Ok((None, self.counter))
            }
        }
    }

    /// The outcome of DC or DS, whose copies, length and value are in range or not.
    fn data(&self, extent: &Extent, fits: bool, named: bool) -> Result<(Option<Name>, u32), u8> {
        refuse(21, !extent.length_fits())?;
        let name = self.name(named, extent.length - 1, extent.length)?;
        refuse(21, !fits)?;
        Ok((name, self.behind(extent.size())?))
    }

    /// The meaning of a name for the byte so far behind the counter, where there is a name.
    fn name(&self, named: bool, offset: u32, length: u32) -> Result<Option<Name>, u8> {
        if !named {
            return Ok(None);
        }
        let value = u16::try_from(self.counter + offset).map_err(|_| 20)?;
        Ok(Some(Name { value: Value::Relocatable(value), length: length as u16 }))
    }

    /// The counter behind so many bytes.
    fn behind(&self, size: u64) -> Result<u32, u8> {
        let counter = u64::from(self.counter) + size;
        refuse(24, counter > ADDRESSES as u64)?;
        Ok(counter as u32)
    }
}

/// Refuses with this number where it holds.
fn refuse(number: u8, holds: bool) -> Result<(), u8> {
    if holds {
        Err(number)
    } else {
        Ok(())
    }
}
