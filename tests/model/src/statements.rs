//! Statements: the form of every kind of card.

use crate::data::{Constant, Extent};
use crate::expressions::Expression;
use crate::operands::Instruction;
use crate::operations::Operation;
use crate::reader::Reader;
use crate::terms::{decimal, hexadecimal};

/// What a card says, before any value is known.
#[derive(Debug, Clone, Copy)]
pub enum Statement<'a> {
    Start(u16),
    Equ(Expression<'a>),
    Org(Expression<'a>),
    Dc(Constant<'a>),
    Ds(Extent),
    Using { base: Expression<'a>, register: Expression<'a> },
    Drop(Expression<'a>),
    End(Option<Expression<'a>>),
    Instruction(Instruction<'a>),
}

impl<'a> Statement<'a> {
    /// The statement of this operation; none where the operand is not of its form.
    pub fn read(operation: Operation, operand: Option<&'a [u8]>) -> Option<Statement<'a>> {
        let Some(operand) = operand else {
            return match operation {
                Operation::Start => Some(Statement::Start(0)),
                Operation::End => Some(Statement::End(None)),
                _ => None,
            };
        };
        let reader = &mut Reader::of(operand);
        let statement = Statement::read_operand(operation, reader)?;
        reader.ended()?;
        Some(statement)
    }

    fn read_operand(operation: Operation, reader: &mut Reader<'a>) -> Option<Statement<'a>> {
        Some(match operation {
            Operation::Start => Statement::Start(start(reader)?),
            Operation::Equ => Statement::Equ(Expression::read(reader)?),
            Operation::Org => Statement::Org(Expression::read(reader)?),
            Operation::Dc => Statement::Dc(Constant::read(reader)?),
            Operation::Ds => Statement::Ds(Extent::read(reader)?),
            Operation::Using => {
                let base = Expression::read(reader)?;
                reader.needs(b',')?;
                Statement::Using { base, register: Expression::read(reader)? }
            }
            Operation::Drop => Statement::Drop(Expression::read(reader)?),
            Operation::End => Statement::End(Some(Expression::read(reader)?)),
            instruction => Statement::Instruction(Instruction::read(instruction, reader)?),
        })
    }
}

/// Takes the operand of START: one decimal or hex term.
fn start(reader: &mut Reader) -> Option<u16> {
    if reader.rest.starts_with(b"X") {
        hexadecimal(reader)
    } else {
        decimal(reader)
    }
}

#[cfg(test)]
mod tests {
    use super::*;

    /// Says whether the operand has the form that the operation wants.
    fn right(operation: &str, operand: &str) -> bool {
        let operation = Operation::find(operation.as_bytes()).expect(operation);
        Statement::read(operation, Some(operand.as_bytes())).is_some()
    }

    fn check(operation: &str, good: &str, bad: &str) {
        for operand in good.split_whitespace() {
            assert!(right(operation, operand), "{operation} {operand}");
        }
        for operand in bad.split_whitespace() {
            assert!(!right(operation, operand), "{operation} {operand}");
        }
    }

    #[test]
    fn start_takes_one_term() {
        check("START", "0 65535 X'FFFF' X'0'", "B'1' C'A' * A 1+1 65536 000256 X'10000' X 1,2 -1");
    }

    #[test]
    fn two_address_cards() {
        let good = "1,2 A(1),B A,B(1) A(1,2),B(,1) A(,2),B(1,1) A(,1),B(,2) A+1*2(1+1,X'2'),*(,1)";
        let bad =
            "1 1, ,1 1,2, 1,2,3 A(),B A(,),B A(1,),B A(1,2,3),B A(1)B A((1)),B (1),2 A(1 A,B)";
        check("MVC", good, &format!("{bad} A(1),B(2) A(1,1),B(1,1)"));
        check("ZAZ", &format!("{good} A(1),B(2) A(1,1),B(1,1)"), bad);
        check("MVX", "A(1),B A,B(1) A(1,2),B(,1)", &format!("{bad} A,B A(,1),B(,1) A(1),B(2)"));
        check("MZN", "A,B A(,1),B A(,1),B(,2)", &format!("{bad} A(1),B A,B(1) A(1,1),B"));
    }

    #[test]
    fn one_address_cards_and_branches() {
        let good = "A,1 A(1),2 A(,1),B*2 *(1),1";
        let bad = "A A, ,1 A,B,C A(1,2),1 A(),1 A(,),1 A(1,),1 A,(1) A,B(1) A,-1 (1),5 A*(1),1";
        for operation in ["MVI", "BC", "LA", "TIO"] {
            check(operation, good, bad);
        }
        check("BNE", "A A(1) A(,1)", "A,1 A(1,1) A() A(1)X");
    }

    #[test]
    fn jumps() {
        check("JC", "A,1 *+3,X'87'", "A A(1),1 A, A,1,2");
        check("J", "A *+3", "A,1 A(1) A(,1) *+3(1)");
    }

    #[test]
    fn the_other_cards() {
        check("USING", "A,1 *,B+1", "A A, ,1 A,1,2 A(1),1");
        check("DROP", "1 A*2", "1,2 (1) 1(1)");
        check("END", "A *+1", "A,B A(1) ,X");
        check("EQU", "A *-* C','", "A,B A(1) A+");
        check("ORG", "A *+256", "*,256 *,256,1 A(1)");
    }

    #[test]
    fn only_start_and_end_may_lack_the_operand() {
        for operation in ["EQU", "ORG", "DC", "DS", "USING", "DROP", "MVC", "MVI", "B", "J"] {
            let operation = Operation::find(operation.as_bytes()).unwrap();
            assert!(Statement::read(operation, None).is_none());
        }
        assert!(matches!(Statement::read(Operation::Start, None), Some(Statement::Start(0))));
        assert!(matches!(Statement::read(Operation::End, None), Some(Statement::End(None))));
    }
}
