//! A case of the arithmetic, its outcome, and the one line that they are printed as:
//! `add m1 u0 3C00 BC00 => 0000 ...... 0`, `minimum 3C00 BC00 => BC00 ...... 0`,
//! `compare i17 3C00 BC00 => 0000 ...... 0`.

use std::fmt;
use std::str::FromStr;

/// The six flags, as they stand in the control word (R1.5).
pub const IE: u8 = 1;
pub const DE: u8 = 2;
pub const ZE: u8 = 4;
pub const OE: u8 = 8;
pub const UE: u8 = 16;
pub const PE: u8 = 32;

#[derive(Clone, Copy, Debug, PartialEq, Eq)]
pub enum Operation {
    Add,
    Subtract,
    Multiply,
    Divide,
    SquareRoot,
    FusedMultiplyAdd,
    Minimum,
    Maximum,
    Compare,
}

impl Operation {
    pub const ALL: [Operation; 9] = [
        Operation::Add,
        Operation::Subtract,
        Operation::Multiply,
        Operation::Divide,
        Operation::SquareRoot,
        Operation::FusedMultiplyAdd,
        Operation::Minimum,
        Operation::Maximum,
        Operation::Compare,
    ];

    /// R8.1: those that round, and so take a mode and whether underflow is unmasked.
    pub fn rounding() -> impl Iterator<Item = Operation> {
        Operation::ALL.into_iter().filter(|o| o.rounds())
    }

    /// The name that follows `ridgecrook_` in the C interface.
    pub fn name(self) -> &'static str {
        match self {
            Operation::Add => "add",
            Operation::Subtract => "subtract",
            Operation::Multiply => "multiply",
            Operation::Divide => "divide",
            Operation::SquareRoot => "square_root",
            Operation::FusedMultiplyAdd => "fused_multiply_add",
            Operation::Minimum => "minimum",
            Operation::Maximum => "maximum",
            Operation::Compare => "compare",
        }
    }

    /// R8.5: a comparison, a minimum and a maximum take no mode.
    pub fn rounds(self) -> bool {
        !matches!(
            self,
            Operation::Minimum | Operation::Maximum | Operation::Compare
        )
    }

    pub fn operand_count(self) -> usize {
        match self {
            Operation::SquareRoot => 1,
            Operation::FusedMultiplyAdd => 3,
            _ => 2,
        }
    }
}

/// A call: `mode`, `underflow_unmasked` and `immediate` are any numbers, as C may pass them. What
/// the operation does not have is 0: the first two where it does not round, the third where it is
/// no comparison, an operand.
#[derive(Clone, Copy, Debug, PartialEq, Eq)]
pub struct Case {
    pub operation: Operation,
    pub mode: u32,
    pub underflow_unmasked: u32,
    pub immediate: u32,
    pub operands: [u16; 3],
}

impl Case {
    /// In mode 0, with underflow masked, and with immediate 0.
    pub fn of(operation: Operation, operands: [u16; 3]) -> Case {
        Case {
            operation,
            mode: 0,
            underflow_unmasked: 0,
            immediate: 0,
            operands,
        }
    }

    pub fn comparison(immediate: u32, a: u16, b: u16) -> Case {
        Case {
            immediate,
            ..Case::of(Operation::Compare, [a, b, 0])
        }
    }

    pub fn used_operands(&self) -> &[u16] {
        &self.operands[..self.operation.operand_count()]
    }
}

impl fmt::Display for Case {
    fn fmt(&self, f: &mut fmt::Formatter) -> fmt::Result {
        write!(f, "{}", self.operation.name())?;
        if self.operation.rounds() {
            write!(f, " m{} u{}", self.mode, self.underflow_unmasked)?;
        }
        if self.operation == Operation::Compare {
            write!(f, " i{}", self.immediate)?;
        }
        for operand in self.used_operands() {
            write!(f, " {operand:04X}")?;
        }
        Ok(())
    }
}

impl FromStr for Case {
    type Err = String;

    /// Reads a case back from its line; what follows `=>` is passed over.
    fn from_str(line: &str) -> Result<Case, String> {
        let mut words = line.split("=>").next().unwrap_or("").split_whitespace();
        let mut word = |what: &str| words.next().ok_or(format!("{what} is missing"));
        let name = word("the operation")?;
        let operation = Operation::ALL
            .into_iter()
            .find(|operation| operation.name() == name)
            .ok_or(format!("no operation has the name {name}"))?;
        let mut case = Case::of(operation, [0; 3]);
        if operation.rounds() {
            case.mode = numbered(word("the mode")?, 'm')?;
            case.underflow_unmasked = numbered(word("the yes or no")?, 'u')?;
        }
        if operation == Operation::Compare {
            case.immediate = numbered(word("the immediate")?, 'i')?;
        }
        for operand in &mut case.operands[..operation.operand_count()] {
            let digits = word("an operand")?;
            *operand = u16::from_str_radix(digits, 16).map_err(|e| format!("{digits}: {e}"))?;
        }
        match words.next() {
            Some(extra) => Err(format!("{extra} is one word too many")),
            None => Ok(case),
        }
    }
}

/// The number behind a letter, as in `m1`.
fn numbered(word: &str, letter: char) -> Result<u32, String> {
    word.strip_prefix(letter)
        .and_then(|digits| digits.parse().ok())
        .ok_or(format!("{word} is not {letter} and a number"))
}

/// What an operation hands back, laid out as `ridgecrook_rounded` of the C interface.
#[repr(C)]
#[derive(Clone, Copy, Debug, PartialEq, Eq)]
pub struct Outcome {
    pub half: u16,
    pub flags: u8,
    pub number: u8,
}

impl fmt::Display for Outcome {
    /// The half, a letter or a dot for each flag in the order I D Z O U P, and the number.
    /// A flag bit that does not exist is printed too.
    fn fmt(&self, f: &mut fmt::Formatter) -> fmt::Result {
        write!(f, "{:04X} ", self.half)?;
        for (bit, letter) in "IDZOUP".chars().enumerate() {
            let shown = if self.flags >> bit & 1 == 1 {
                letter
            } else {
                '.'
            };
            write!(f, "{shown}")?;
        }
        if self.flags > 63 {
            write!(f, "+{:02X}", self.flags & !63)?;
        }
        write!(f, " {}", self.number)
    }
}

/// One implementation of the nine operations: operands, then mode and whether underflow is unmasked
/// where it rounds, or the immediate of a comparison.
pub struct Arithmetic {
    pub add: fn(u16, u16, u32, u32) -> Outcome,
    pub subtract: fn(u16, u16, u32, u32) -> Outcome,
    pub multiply: fn(u16, u16, u32, u32) -> Outcome,
    pub divide: fn(u16, u16, u32, u32) -> Outcome,
    pub square_root: fn(u16, u32, u32) -> Outcome,
    pub fused_multiply_add: fn(u16, u16, u16, u32, u32) -> Outcome,
    pub minimum: fn(u16, u16) -> Outcome,
    pub maximum: fn(u16, u16) -> Outcome,
    pub compare: fn(u16, u16, u32) -> Outcome,
}

impl Arithmetic {
    pub fn answer(&self, case: &Case) -> Outcome {
        let [a, b, c] = case.operands;
        let (mode, yes) = (case.mode, case.underflow_unmasked);
        match case.operation {
            Operation::Add => (self.add)(a, b, mode, yes),
            Operation::Subtract => (self.subtract)(a, b, mode, yes),
            Operation::Multiply => (self.multiply)(a, b, mode, yes),
            Operation::Divide => (self.divide)(a, b, mode, yes),
            Operation::SquareRoot => (self.square_root)(a, mode, yes),
            Operation::FusedMultiplyAdd => (self.fused_multiply_add)(a, b, c, mode, yes),
            Operation::Minimum => (self.minimum)(a, b),
            Operation::Maximum => (self.maximum)(a, b),
            Operation::Compare => (self.compare)(a, b, case.immediate),
        }
    }
}

#[cfg(test)]
mod tests {
    use super::*;

    #[test]
    fn a_printed_line_is_read_back() {
        for line in [
            "add m1 u0 3C00 BC00",
            "square_root m4294967295 u2147483648 0001",
            "fused_multiply_add m0 u1 3C01 3C01 BC02",
            "minimum 3C00 BC00",
            "maximum 7C01 0001",
            "compare i17 3C00 BC00",
            "compare i4294967295 0000 8000",
        ] {
            assert_eq!(line.parse::<Case>().unwrap().to_string(), line);
            let failure = format!("{line} => 0000 ...... 0 expected 8000 ...... 0");
            assert_eq!(failure.parse::<Case>().unwrap().to_string(), line);
        }
    }

    #[test]
    fn a_wrong_line_is_refused() {
        for line in [
            "",
            "plus m0 u0 3C00 3C00",
            "add 0 u0 3C00 3C00",
            "add m0 u 3C00 3C00",
            "add m0 u0 3C00",
            "add m0 u0 3C00 3C00 3C00",
            "add m0 u0 3C00 3C000",
            "add i0 3C00 3C00",
            "add 3C00 3C00",
            "minimum m0 u0 3C00 3C00",
            "minimum i0 3C00 3C00",
            "maximum 3C00",
            "compare 3C00 3C00",
            "compare m0 u0 3C00 3C00",
            "compare i4294967296 3C00 3C00",
            "compare i0 3C00",
        ] {
            assert!(line.parse::<Case>().is_err(), "{line}");
        }
    }

    #[test]
    fn an_outcome_shows_every_bit() {
        let outcome = |half, flags, number| {
            Outcome {
                half,
                flags,
                number,
            }
            .to_string()
        };
        assert_eq!(outcome(0x7C00, OE | PE, 0), "7C00 ...O.P 0");
        assert_eq!(outcome(0xFE00, IE, 0), "FE00 I..... 0");
        assert_eq!(outcome(0, DE | ZE | UE | 0xC0, 9), "0000 .DZ.U.+C0 9");
    }
}
