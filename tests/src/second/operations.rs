//! R6.5 to R6.15: of an operation that rounds, what is decided without, and else the exact value
//! that is left to be rounded.

use super::exact::{Magnitude, Value};
use super::half::*;
use super::rounding::Mode;
use crate::case::{Case, Operation, DE, IE, ZE};

/// What the operands are before rounding: decided already, or an exact value other than zero and
/// the flags that stand beside it.
pub enum Stage {
    Decided { half: u16, flags: u8 },
    Exact { value: Value, flags: u8 },
}

/// R6.5: the order of the rules.
pub fn before_rounding(case: &Case, mode: Mode) -> Stage {
    let written = case.used_operands();
    // R6.6: the first NaN
    if let Some(&nan) = written.iter().find(|&&half| is_nan(half)) {
        let signalling = written.iter().any(|&half| is_signalling(half));
        return decided(made_quiet(nan), if signalling { IE } else { 0 });
    }
    let (operation, operands) = without_subtraction(case);
    // R6.7, R6.8: no number, and division by zero
    if is_invalid(operation, operands) {
        return decided(0xFE00, IE);
    }
    let [a, b, _] = operands;
    if operation == Operation::Divide && is_zero(b) && !is_infinite(a) {
        return decided(signed(signs_differ(a, b), INFINITY), ZE);
    }
    // R6.9: DE beside what is left
    let some_subnormal = written.iter().any(|&half| is_subnormal(half));
    let flags = if some_subnormal { DE } else { 0 };
    // R6.10: infinities
    if let Some(half) = with_infinity(operation, operands) {
        return decided(half, flags);
    }
    match finite(operation, operands, mode) {
        Ok(value) => Stage::Exact { value, flags },
        Err(zero) => decided(zero, flags),
    }
}

fn decided(half: u16, flags: u8) -> Stage {
    Stage::Decided { half, flags }
}

/// R6.13, where no operand is a NaN.
fn without_subtraction(case: &Case) -> (Operation, [u16; 3]) {
    let [a, b, c] = case.operands;
    match case.operation {
        Operation::Subtract => (Operation::Add, [a, b ^ 0x8000, c]),
        operation => (operation, [a, b, c]),
    }
}

fn signs_differ(a: u16, b: u16) -> bool {
    is_negative(a) != is_negative(b)
}

/// R6.7: whether there is no number to give.
fn is_invalid(operation: Operation, [a, b, c]: [u16; 3]) -> bool {
    let zero_times_infinity = is_zero(a) && is_infinite(b) || is_infinite(a) && is_zero(b);
    match operation {
        Operation::Add | Operation::Subtract => {
            is_infinite(a) && is_infinite(b) && signs_differ(a, b)
        }
        Operation::Multiply => zero_times_infinity,
        Operation::Divide => is_zero(a) && is_zero(b) || is_infinite(a) && is_infinite(b),
        Operation::SquareRoot => is_negative(a) && !is_zero(a),
        Operation::FusedMultiplyAdd => {
            let infinite_product = is_infinite(a) || is_infinite(b);
            let cancels = signs_differ(a, b) != is_negative(c);
            zero_times_infinity || infinite_product && is_infinite(c) && cancels
        }
        Operation::Minimum | Operation::Maximum | Operation::Compare => no_rounding(operation),
    }
}

/// R6.10, where an operand is infinite.
fn with_infinity(operation: Operation, [a, b, c]: [u16; 3]) -> Option<u16> {
    let product = signed(signs_differ(a, b), INFINITY);
    let factor = is_infinite(a) || is_infinite(b);
    match operation {
        Operation::Add | Operation::Subtract if is_infinite(a) => Some(a),
        Operation::Add | Operation::Subtract if is_infinite(b) => Some(b),
        Operation::Multiply if factor => Some(product),
        Operation::Divide if is_infinite(a) => Some(product),
        Operation::Divide if is_infinite(b) => Some(signed(signs_differ(a, b), 0)),
        Operation::SquareRoot if is_infinite(a) => Some(a),
        Operation::FusedMultiplyAdd if factor => Some(product),
        Operation::FusedMultiplyAdd if is_infinite(c) => Some(c),
        _ => None,
    }
}

/// 2 to the 24: the unit of R6.3 goes into 1 so often.
const SCALE: u128 = 1 << 24;

/// The exact result of finite operands, or the zero that it is.
fn finite(operation: Operation, [a, b, c]: [u16; 3], mode: Mode) -> Result<Value, u16> {
    let whole = |half: u16| units(magnitude(half));
    let alone = |half: u16| Term {
        negative: is_negative(half),
        units: whole(half) * SCALE,
    };
    let product = Term {
        negative: signs_differ(a, b),
        units: whole(a) * whole(b),
    };
    match operation {
        Operation::Add | Operation::Subtract => sum(alone(a), alone(b), mode),
        Operation::Multiply if product.units == 0 => Err(signed(product.negative, 0)),
        Operation::Multiply => Ok(product.value()),
        Operation::Divide if is_zero(a) => Err(signed(signs_differ(a, b), 0)),
        Operation::Divide => Ok(Value {
            negative: signs_differ(a, b),
            magnitude: Magnitude::fraction(whole(a), whole(b)),
        }),
        // R6.14: the root of a zero is that zero.
        Operation::SquareRoot if is_zero(a) => Err(a),
        Operation::SquareRoot => Ok(Value {
            negative: false,
            magnitude: Magnitude::root(whole(a), SCALE),
        }),
        Operation::FusedMultiplyAdd => sum(product, alone(c), mode),
        Operation::Minimum | Operation::Maximum | Operation::Compare => no_rounding(operation),
    }
}

/// `comparison` has the others.
fn no_rounding(operation: Operation) -> ! {
    panic!("{} does not round", operation.name())
}

/// A term of a sum, in units of 2 to the -48.
struct Term {
    negative: bool,
    units: u128,
}

impl Term {
    fn value(&self) -> Value {
        Value {
            negative: self.negative,
            magnitude: Magnitude::fraction(self.units, SCALE * SCALE),
        }
    }
}

/// The exact sum of two terms, or the zero that it is.
fn sum(first: Term, second: Term, mode: Mode) -> Result<Value, u16> {
    let alike = first.negative == second.negative;
    let (negative, units) = if alike {
        (first.negative, first.units + second.units)
    } else if first.units > second.units {
        (first.negative, first.units - second.units)
    } else {
        (second.negative, second.units - first.units)
    };
    if units > 0 {
        return Ok(Term { negative, units }.value());
    }
    // R6.12: the sign of a zero sum
    let negative_zero = if alike { negative } else { mode == Mode::Down };
    Err(signed(negative_zero, 0))
}
