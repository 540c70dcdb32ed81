//! The operations: what each one's card is, by its letters.

#[derive(Debug, Clone, Copy, PartialEq, Eq)]
pub enum Operation {
    Start,
    Equ,
    Org,
    Dc,
    Ds,
    Using,
    Drop,
    End,
    TwoAddress(u8, Item),
    OneAddress(u8),
    Branch(u8, Q),
    Jump(Q),
}

/// What the item before the register is, on a two-address card.
#[derive(Debug, Clone, Copy, PartialEq, Eq)]
pub enum Item {
    /// A length on each operand.
    Lengths,
    /// A length for both operands.
    Length,
    /// The Q code itself.
    Half,
    /// None: the mnemonic gives the Q code.
    Given(u8),
}

/// Where the Q code of a branch or a jump comes from.
#[derive(Debug, Clone, Copy, PartialEq, Eq)]
pub enum Q {
    Written,
    /// Written, and 1 or 2.
    Register,
    /// The mnemonic gives it.
    Given(u8),
}

impl Operation {
    /// The operation with this mnemonic.
    pub fn find(mnemonic: &[u8]) -> Option<Operation> {
        use Operation::*;
        Some(match mnemonic {
            b"START" => Start,
            b"EQU" => Equ,
            b"ORG" => Org,
            b"DC" => Dc,
            b"DS" => Ds,
            b"USING" => Using,
            b"DROP" => Drop,
            b"END" => End,
            b"ZAZ" => TwoAddress(0x4, Item::Lengths),
            b"AZ" => TwoAddress(0x6, Item::Lengths),
            b"SZ" => TwoAddress(0x7, Item::Lengths),
            b"MVX" => TwoAddress(0x8, Item::Half),
            b"ED" => TwoAddress(0xA, Item::Length),
            b"ITC" => TwoAddress(0xB, Item::Length),
            b"MVC" => TwoAddress(0xC, Item::Length),
            b"CLC" => TwoAddress(0xD, Item::Length),
            b"ALC" => TwoAddress(0xE, Item::Length),
            b"SLC" => TwoAddress(0xF, Item::Length),
            b"MZZ" => TwoAddress(0x8, Item::Given(0)),
            b"MZN" => TwoAddress(0x8, Item::Given(1)),
            b"MNZ" => TwoAddress(0x8, Item::Given(2)),
            b"MNN" => TwoAddress(0x8, Item::Given(3)),
            b"SNS" => OneAddress(0x0),
            b"LIO" => OneAddress(0x1),
            b"ST" => OneAddress(0x4),
            b"L" => OneAddress(0x5),
            b"A" => OneAddress(0x6),
            b"TBN" => OneAddress(0x8),
            b"TBF" => OneAddress(0x9),
            b"SBN" => OneAddress(0xA),
            b"SBF" => OneAddress(0xB),
            b"MVI" => OneAddress(0xC),
            b"CLI" => OneAddress(0xD),
            b"BC" => Branch(0, Q::Written),
            b"TIO" => Branch(1, Q::Written),
            b"LA" => Branch(2, Q::Register),
            b"JC" => Jump(Q::Written),
            [b'B', on @ ..] => Branch(0, Q::Given(condition(on)?)),
            [b'J', on @ ..] => Jump(Q::Given(condition(on)?)),
            _ => return None,
        })
    }

    /// Says whether the operation's card must have a name.
    pub fn needs_name(self) -> bool {
        self == Operation::Equ
    }

    /// Says whether the operation's card must not have a name.
    pub fn forbids_name(self) -> bool {
        use Operation::*;
        matches!(self, Org | Using | Drop | End)
    }
}

/// The Q code of a branch or jump whose mnemonic ends so.
fn condition(letters: &[u8]) -> Option<u8> {
    Some(match letters {
        b"" => 0x87,
        b"H" | b"P" => 0x84,
        b"L" | b"M" => 0x82,
        b"E" | b"Z" => 0x81,
        b"NH" | b"NP" => 0x04,
        b"NL" | b"NM" => 0x02,
        b"NE" | b"NZ" => 0x01,
        b"OZ" => 0x88,
        b"OL" => 0xA0,
        b"NOZ" => 0x08,
        b"NOL" => 0x20,
        b"T" => 0x10,
        b"F" => 0x90,
        _ => return None,
    })
}

#[cfg(test)]
mod tests {
    use super::*;

    #[test]
    fn extended_branches_and_jumps_have_the_same_q_codes() {
        let codes = [
            ("", 0x87),
            ("H", 0x84),
            ("L", 0x82),
            ("E", 0x81),
            ("NH", 0x04),
            ("NL", 0x02),
            ("NE", 0x01),
            ("OZ", 0x88),
            ("OL", 0xA0),
            ("NOZ", 0x08),
            ("NOL", 0x20),
            ("T", 0x10),
            ("F", 0x90),
            ("P", 0x84),
            ("M", 0x82),
            ("Z", 0x81),
            ("NP", 0x04),
            ("NM", 0x02),
            ("NZ", 0x01),
        ];
        for (on, q) in codes {
            let find = |letter: &str| Operation::find(format!("{letter}{on}").as_bytes());
            assert_eq!(find("B"), Some(Operation::Branch(0, Q::Given(q))), "B{on}");
            assert_eq!(find("J"), Some(Operation::Jump(Q::Given(q))), "J{on}");
        }
    }

    #[test]
    fn operations_left_out_are_unknown() {
        let left_out = "TITLE EJECT SPACE PRINT ICTL ISEQ EXTRN ENTRY HPL APL SIO SCP LCP CCP SVC \
            OPTIONS HEADERS NOP BX JX BNT JNF MZ MVN * , DCX";
        for mnemonic in left_out.split_whitespace() {
            assert_eq!(Operation::find(mnemonic.as_bytes()), None, "{mnemonic}");
        }
        assert_eq!(Operation::find(b""), None);
    }
}
