//! R6.17 to R6.24: an exact result other than zero becomes a half and flags.

use super::exact::{Magnitude, Value};
use super::half::{signed, units, INFINITY, LARGEST};
use crate::case::{OE, PE, UE};
use std::cmp::Ordering;

#[derive(Clone, Copy, PartialEq, Eq)]
pub enum Mode {
    Nearest,
    Down,
    Up,
    TowardZero,
}

impl Mode {
    pub fn numbered(number: u32) -> Option<Mode> {
        match number {
            0 => Some(Mode::Nearest),
            1 => Some(Mode::Down),
            2 => Some(Mode::Up),
            3 => Some(Mode::TowardZero),
            _ => None,
        }
    }

    /// R6.17: whether a value strictly between two neighbours becomes the one of larger magnitude.
    /// `middle` is how its magnitude compares with the middle of the two, `odd` is said of the
    /// neighbour of smaller magnitude.
    fn goes_outward(self, negative: bool, odd: bool, middle: Ordering) -> bool {
        match self {
            Mode::Nearest => middle == Ordering::Greater || (middle == Ordering::Equal && odd),
            Mode::Down => negative,
            Mode::Up => !negative,
            Mode::TowardZero => false,
        }
    }

    /// R6.20: what becomes of an overflow.
    fn overflow(self, negative: bool) -> u16 {
        let magnitude = match self {
            Mode::Nearest => INFINITY,
            Mode::Down if negative => INFINITY,
            Mode::Up if !negative => INFINITY,
            _ => LARGEST,
        };
        signed(negative, magnitude)
    }
}

pub fn round(value: &Value, mode: Mode, underflow_unmasked: bool) -> (u16, u8) {
    // R6.19: without limits on the exponent
    let rounded = significant(value, mode);
    // R6.20: overflow
    if !rounded.is_below(1, 16) {
        return (mode.overflow(value.negative), OE | PE);
    }
    // R6.21: below the smallest normal half
    let tiny = rounded.is_below(1, -14);
    // R6.18: rounded once more, from the exact value
    let (half, exact) = on_the_grid(value, mode);
    // R6.22: PE
    let inexact = !exact;
    // R6.23: UE
    let underflow = tiny && (underflow_unmasked || inexact);
    let flags = if inexact { PE } else { 0 } | if underflow { UE } else { 0 };
    (half, flags)
}

/// R6.19: the magnitude rounded to 11 significant bits, whatever the exponent.
fn significant(value: &Value, mode: Mode) -> Magnitude {
    let x = &value.magnitude;
    let (count, unit) = eleven_bits(x);
    let between = x.compare(count, unit) != Ordering::Equal;
    let middle = x.compare(2 * count + 1, unit - 1);
    if between && mode.goes_outward(value.negative, count % 2 == 1, middle) {
        Magnitude::scaled(count + 1, unit)
    } else {
        Magnitude::scaled(count, unit)
    }
}

/// The unit, as a power of 2, in which x holds 1,024 to 2,047 units, and how many whole ones.
fn eleven_bits(x: &Magnitude) -> (u128, i32) {
    // No exact result is 2,048 times 2 to the 40, and going down from there keeps what is
    // multiplied out small.
    let mut unit = 40;
    while x.is_below(1024, unit) {
        unit -= 1;
    }
    let count = last_not_above(1024, 2048, |count| !x.is_below(count, unit));
    (count, unit)
}

pub fn fits_eleven_bits(value: &Value) -> bool {
    let (count, unit) = eleven_bits(&value.magnitude);
    value.magnitude.compare(count, unit) == Ordering::Equal
}

/// R6.18: the value rounded to a half, and whether it was one already. It is not to be one that
/// overflows.
fn on_the_grid(value: &Value, mode: Mode) -> (u16, bool) {
    let x = &value.magnitude;
    let below = half_not_above(x);
    if x.compare(units(below), -24) == Ordering::Equal {
        return (signed(value.negative, below), true);
    }
    let middle = compare_with_middle(x, below);
    let outward = mode.goes_outward(value.negative, below % 2 == 1, middle);
    (signed(value.negative, below + u16::from(outward)), false)
}

/// The largest finite half, as a magnitude, that is not above x.
fn half_not_above(x: &Magnitude) -> u16 {
    let end = u128::from(INFINITY);
    let found = last_not_above(0, end, |h| !x.is_below(units(h as u16), -24));
    found as u16
}

/// How x compares with the middle of a half and the next one, whose sum counts units of 2 to the
/// -25 there.
fn compare_with_middle(x: &Magnitude, below: u16) -> Ordering {
    x.compare(units(below) + units(below + 1), -25)
}

pub fn is_in_the_middle(value: &Value) -> bool {
    let x = &value.magnitude;
    compare_with_middle(x, half_not_above(x)) == Ordering::Equal
}

/// The last of the numbers from `first` to `end - 1` that is not above something, where `first` is
/// not: the range is halved until one number is left.
fn last_not_above(first: u128, end: u128, is_not_above: impl Fn(u128) -> bool) -> u128 {
    let (mut low, mut high) = (first, end);
    while high - low > 1 {
        let middle = (low + high) / 2;
        if is_not_above(middle) {
            low = middle;
        } else {
            high = middle;
        }
    }
    low
}
