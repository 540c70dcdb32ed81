//! Expressions: their form, and their value at a card.

use crate::names::{Names, Value};
use crate::reader::Reader;
use crate::terms::Term;
use std::ops::RangeInclusive;

/// Every partial product and partial sum lies here.
const PARTIAL: RangeInclusive<i64> = -16_777_216..=16_777_215;
/// The final value lies here.
const FINAL: RangeInclusive<i64> = -65_536..=65_535;

/// The text of an expression whose form is right.
#[derive(Debug, Clone, Copy)]
pub struct Expression<'a>(&'a [u8]);

impl<'a> Expression<'a> {
    /// Takes the expression that is next; none where its form is wrong.
    pub fn read(reader: &mut Reader<'a>) -> Option<Expression<'a>> {
        let text = reader.rest;
        Term::read(reader)?;
        while let Some(b'+' | b'-' | b'*') = reader.rest.first() {
            reader.pass(1);
            Term::read(reader)?;
        }
        Some(Expression(&text[..text.len() - reader.rest.len()]))
    }

    /// The terms, each with the operator before it; that of the first is plus.
    fn terms(self) -> impl Iterator<Item = (u8, Term<'a>)> {
        let mut reader = Reader::of(self.0);
        let mut operator = b'+';
        std::iter::from_fn(move || {
            let term = (operator, Term::read(&mut reader)?);
            if !reader.rest.is_empty() {
                operator = reader.pass(1)[0];
            }
            Some(term)
        })
    }

    /// The length of the first term if it is a symbol, else 1.
    pub fn implied_length(self, names: &Names) -> u16 {
        let first = self.terms().next().map(|(_, term)| term);
        let Some(Term::Symbol(symbol)) = first else { return 1 };
        names.get(symbol).map_or(1, |name| name.length)
    }
}

/// What an expression comes to, before its place asks for a kind.
#[derive(Default)]
struct Sum {
    undefined: bool,
    /// A factor is relocatable.
    factor: bool,
    /// Relocatable terms after plus minus those after minus.
    balance: i32,
    out_of_range: bool,
    value: i64,
}

/// A product being worked out.
struct Product {
    subtracted: bool,
    value: i64,
    factors: u32,
    relocatable: u32,
}

impl Sum {
    fn of(expression: Expression, names: &Names, counter: u32) -> Sum {
        let mut sum = Sum::default();
        let mut product: Option<Product> = None;
        for (operator, term) in expression.terms() {
            let (value, relocatable) = sum.term(term, names, counter);
            product = match product {
                Some(mut product) if operator == b'*' => {
                    product.value = product.value.saturating_mul(value);
                    sum.out_of_range |= !PARTIAL.contains(&product.value);
                    product.factors += 1;
                    product.relocatable += relocatable;
                    Some(product)
                }
                before => {
                    before.into_iter().for_each(|product| sum.add(product));
                    let subtracted = operator == b'-';
                    Some(Product { subtracted, value, factors: 1, relocatable })
                }
            };
        }
        product.into_iter().for_each(|product| sum.add(product));
        sum
    }

    /// The value of a term, and 1 if it is relocatable, else 0.
    fn term(&mut self, term: Term, names: &Names, counter: u32) -> (i64, u32) {
        match term {
            Term::Number(value) => (i64::from(value), 0),
            Term::Counter => (i64::from(counter), 1),
            Term::Symbol(symbol) => match names.get(symbol).map(|name| name.value) {
                Some(Value::Absolute(value)) => (i64::from(value), 0),
                Some(Value::Relocatable(value)) => (i64::from(value), 1),
                None => {
                    self.undefined = true;
                    (0, 0)
                }
            },
        }
    }

    fn add(&mut self, product: Product) {
        let Product { subtracted, value, factors, relocatable } = product;
        let sign = if subtracted { -1 } else { 1 };
        self.factor |= factors > 1 && relocatable > 0;
        self.balance += sign * relocatable as i32;
        self.value = self.value.saturating_add(i64::from(sign) * value);
        self.out_of_range |= !PARTIAL.contains(&self.value);
    }
}

/// Values the expressions of one card, and keeps the lowest number of refusal that holds.
pub struct Valuer<'n, 'a> {
    names: &'n Names<'a>,
    counter: u32,
    lowest: Option<u8>,
}

/// The kinds of value that a place takes.
#[derive(Clone, Copy, PartialEq, Eq)]
enum Kind {
    Absolute,
    Relocatable,
    Either,
}

impl<'n, 'a> Valuer<'n, 'a> {
    pub fn new(names: &'n Names<'a>, counter: u32) -> Valuer<'n, 'a> {
        Valuer { names, counter, lowest: None }
    }

    /// Notes that a refusal of this number holds.
    pub fn refuse(&mut self, number: u8) {
        self.lowest = Some(self.lowest.map_or(number, |lowest| lowest.min(number)));
    }

    /// The lowest number that was noted, as a refusal.
    pub fn refused(&self) -> Result<(), u8> {
        self.lowest.map_or(Ok(()), Err)
    }

    /// The value where it must be absolute; 0 with a refusal.
    pub fn absolute(&mut self, expression: Expression) -> u16 {
        match self.value(expression, Kind::Absolute) {
            Some(Value::Absolute(value)) => value,
            _ => 0,
        }
    }

    /// The value where it must be relocatable; 0 with a refusal.
    pub fn relocatable(&mut self, expression: Expression) -> u16 {
        match self.value(expression, Kind::Relocatable) {
            Some(Value::Relocatable(value)) => value,
            _ => 0,
        }
    }

    /// The value where it may be either; absolute 0 with a refusal.
    pub fn either(&mut self, expression: Expression) -> Value {
        self.value(expression, Kind::Either).unwrap_or(Value::Absolute(0))
    }

    /// The value, or none with the lowest number that holds for this expression.
    fn value(&mut self, expression: Expression, wanted: Kind) -> Option<Value> {
        let sum = Sum::of(expression, self.names, self.counter);
        let kind = match sum.balance {
            0 if !sum.factor => Some(Kind::Absolute),
            1 if !sum.factor => Some(Kind::Relocatable),
            _ => None,
        };
        let right_kind = kind.filter(|&kind| wanted == Kind::Either || wanted == kind);
        let lowest = if kind == Some(Kind::Relocatable) { 0 } else { *FINAL.start() };
        let in_range = !sum.out_of_range && (lowest..=*FINAL.end()).contains(&sum.value);
        let value = sum.value.rem_euclid(65_536) as u16;
        match right_kind {
            _ if sum.undefined => self.refuse(18),
            None => self.refuse(19),
            _ if !in_range => self.refuse(20),
            Some(Kind::Relocatable) => return Some(Value::Relocatable(value)),
            Some(_) => return Some(Value::Absolute(value)),
        }
        None
    }
}

#[cfg(test)]
mod tests {
    use super::*;
    use crate::names::Name;

    const COUNTER: u32 = 1000;

    /// The value of the text with A, F, G absolute and R, X, Y relocatable.
    fn value(text: &str) -> Result<Value, u8> {
        let mut names = Names::default();
        let absolute = [("A", 50), ("F", 1), ("G", 4)].map(|(n, v)| (n, Value::Absolute(v)));
        let relocatable = [("R", 3), ("X", 10), ("Y", 25)].map(|(n, v)| (n, Value::Relocatable(v)));
        for (name, value) in absolute.into_iter().chain(relocatable) {
            names.define(name.as_bytes(), Name { value, length: 1 });
        }
        let mut reader = Reader::of(text.as_bytes());
        let expression =
            Expression::read(&mut reader).filter(|_| reader.rest.is_empty()).ok_or(15)?;
        let mut valuer = Valuer::new(&names, COUNTER);
        let value = valuer.either(expression);
        valuer.refused().map(|()| value)
    }

    fn absolute(value: u16) -> Result<Value, u8> {
        Ok(Value::Absolute(value))
    }

    fn relocatable(value: u16) -> Result<Value, u8> {
        Ok(Value::Relocatable(value))
    }

    #[test]
    fn products_go_before_sums() {
        assert_eq!(value("2+3*4-5*2"), absolute(4));
        assert_eq!(value("A-Y+X"), absolute(35));
        assert_eq!(value("R+F*G-X+Y"), relocatable(22));
    }

    #[test]
    fn ranges_of_the_final_value() {
        assert_eq!(value("0-1"), absolute(65535));
        assert_eq!(value("0-65535-1"), absolute(0));
        assert_eq!(value("0-65535-2"), Err(20));
        assert_eq!(value("65535+1"), Err(20));
        assert_eq!(value("X-11"), Err(20));
        assert_eq!(value("X+65525"), relocatable(65535));
        assert_eq!(value("X+65526"), Err(20));
    }

    #[test]
    fn ranges_of_partial_results() {
        assert_eq!(value("65535*256-65535*255"), absolute(65535));
        assert_eq!(value("65535*257-65535*256"), Err(20));
        assert_eq!(value("65535*65535*65535*65535*65535*0"), Err(20));
        assert_eq!(value("0-4096*4096+65535*255+65535"), Err(20));
        assert_eq!(value("0-4095*4097-1+65535*255+65535"), absolute(65280));
    }

    #[test]
    fn kinds() {
        assert_eq!(value("X+Y-R"), relocatable(32));
        assert_eq!(value("0-X+X+X"), relocatable(10));
        assert_eq!(["X+Y", "0-X", "X*1", "0*X", "*-X-Y", "X*Y"].map(value), [Err(19); 6]);
        assert_eq!(value("X*65535*65535"), Err(19));
        assert_eq!(value("NONE*X+65535*65535"), Err(18));
    }

    #[test]
    fn an_asterisk_by_its_place() {
        assert_eq!(value("*"), relocatable(1000));
        assert_eq!(value("*-*"), absolute(0));
        assert_eq!(["***", "**2", "2***3"].map(value), [Err(19); 3]);
        assert_eq!(["****", "2****3", "2*", "A*"].map(value), [Err(15); 4]);
    }

    #[test]
    fn forms() {
        assert_eq!(["", "+1", "-1", "1+", "A+-1", "(1)", "1 +1", "A B"].map(value), [Err(15); 8]);
    }
}
