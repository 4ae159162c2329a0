//! The half arithmetic with the same modes and six flags, unproved and written for speed: normal
//! operands by integers, as a good engineer would write it without proofs; all others, and results
//! that are zero or may be subnormal, through f64 (`plain_double`). A step has them inlined. What
//! compares and does not round stands in `plain_compare`.

use crate::plain_compare::{compare, maximum, minimum};
use crate::plain_double as double;
use ridgecrook_tests::case::{Arithmetic, Outcome, OE, PE, UE};

pub const PLAIN: Arithmetic = Arithmetic {
    add,
    subtract,
    multiply,
    divide,
    square_root,
    fused_multiply_add,
    minimum,
    maximum,
    compare,
};

const SIGN: u16 = 0x8000;
const INFINITY: u32 = 0x7C00;

/// By mode and sign (positive, negative): what is added to a number of quarters to round it, but
/// for the last bit that stays in mode 0.
const CARRY: [u32; 8] = [1, 1, 0, 3, 3, 0, 0, 0];

/// By mode and sign: the magnitude of an overflow.
const LARGEST: [u32; 8] = [
    0x7C00, 0x7C00, 0x7BFF, 0x7C00, 0x7C00, 0x7BFF, 0x7BFF, 0x7BFF,
];

/// How a result is rounded: the mode, and the place in the tables of it and the sign.
#[derive(Clone, Copy)]
struct Rounding {
    mode: u32,
    sign: u16,
    place: usize,
}

impl Rounding {
    #[inline(always)]
    fn of(mode: u32, sign: u16) -> Rounding {
        let place = (mode * 2 + u32::from(sign >> 15)) as usize & 7;
        Rounding { mode, sign, place }
    }

    #[inline(always)]
    fn whole(self, quarters: u32) -> u32 {
        (quarters + CARRY[self.place] + (quarters >> 2 & u32::from(self.mode == 0))) >> 2
    }

    #[inline(always)]
    fn done(self, magnitude: u32, flags: u8) -> Outcome {
        Outcome {
            half: magnitude as u16 | self.sign,
            flags,
            number: 0,
        }
    }

    /// The half of 13 digits, the last of which says whether something is left below, at an
    /// exponent from 0 on.
    #[inline(always)]
    fn packed(self, digits: u32, exponent: u32) -> Outcome {
        let magnitude = (exponent << 10) + self.whole(digits);
        if magnitude >= INFINITY {
            return self.done(LARGEST[self.place], OE | PE);
        }
        self.done(magnitude, inexact(digits))
    }
}

#[inline(always)]
fn inexact(digits: u32) -> u8 {
    u8::from(digits & 3 != 0) << 5
}

/// The highest 12 of a number's digits, whose highest is bit 63, and whether something is below.
#[inline(always)]
fn thirteen(digits: u64) -> u32 {
    (digits >> 52) as u32 * 2 + u32::from(digits << 12 != 0)
}

#[inline(always)]
fn exponent(half: u16) -> u32 {
    u32::from(half >> 10 & 31)
}

#[inline(always)]
fn significand(half: u16) -> u32 {
    u32::from(half & 0x03FF | 0x0400)
}

/// The exponent field is 1 to 30.
#[inline(always)]
fn is_normal(half: u16) -> bool {
    0x7FFF_FFFE_u32 >> exponent(half) & 1 == 1
}

#[inline(always)]
fn are_normal(mode: u32, halves: &[u16]) -> bool {
    mode <= 3 && halves.iter().all(|&half| is_normal(half))
}

/// Below 2 to the -14: the exponent is below 0. What leaves no digit is still more than nothing.
#[inline(never)]
fn small(thirteen: u32, exponent: i32, rounding: Rounding, underflow_unmasked: u32) -> Outcome {
    let by = exponent.unsigned_abs().min(15);
    let kept = thirteen >> by;
    let quarters = kept | u32::from(kept << by != thirteen);
    let flag = inexact(quarters);
    let is_tiny = exponent < -1 || rounding.whole(thirteen) < 2048;
    let is_underflow = is_tiny && (underflow_unmasked != 0 || flag != 0);
    let underflow = if is_underflow { UE } else { 0 };
    rounding.done(rounding.whole(quarters), flag | underflow)
}

/// A product or quotient of two significands, whose highest digit is bit 20 or 21, and what is
/// left below it.
#[inline(always)]
fn ratio(
    digits: u32,
    rest: u32,
    exponent: i32,
    rounding: Rounding,
    underflow_unmasked: u32,
) -> Outcome {
    let top = digits >> 21;
    let digits = digits << (11 - top) | rest;
    let thirteen = (digits >> 20) * 2 + u32::from(digits << 12 != 0);
    let exponent = exponent + top as i32;
    if exponent < 0 {
        return small(thirteen, exponent, rounding, underflow_unmasked);
    }
    rounding.packed(thirteen, exponent as u32)
}

#[inline(always)]
pub fn multiply(a: u16, b: u16, mode: u32, underflow_unmasked: u32) -> Outcome {
    if !are_normal(mode, &[a, b]) {
        return double::multiply(a, b, mode, underflow_unmasked);
    }
    let digits = significand(a) * significand(b);
    let e = (exponent(a) + exponent(b)) as i32 - 16;
    let rounding = Rounding::of(mode, (a ^ b) & SIGN);
    ratio(digits, 0, e, rounding, underflow_unmasked)
}

#[inline(always)]
pub fn divide(a: u16, b: u16, mode: u32, underflow_unmasked: u32) -> Outcome {
    if !are_normal(mode, &[a, b]) {
        return double::divide(a, b, mode, underflow_unmasked);
    }
    let (x, y) = (significand(a) << 21, significand(b));
    let rest = u32::from(x % y != 0);
    let e = exponent(a) as i32 - exponent(b) as i32 + 13;
    let rounding = Rounding::of(mode, (a ^ b) & SIGN);
    ratio(x / y, rest, e, rounding, underflow_unmasked)
}

/// a + b of normal halves, where it is not 0 and not below 2 to the -14.
#[inline(always)]
fn sum(a: u16, b: u16, mode: u32) -> Option<Outcome> {
    let (far, near) = if a & !SIGN < b & !SIGN {
        (b, a)
    } else {
        (a, b)
    };
    let e = exponent(far);
    let x = u64::from(significand(far)) << 32;
    let y = u64::from(significand(near)) << 32 >> (e - exponent(near));
    let digits = if (a ^ b) & SIGN == 0 { x + y } else { x - y };
    let zeros = digits.leading_zeros();
    if digits == 0 || e + 20 < zeros {
        return None;
    }
    Some(Rounding::of(mode, far & SIGN).packed(thirteen(digits << zeros), e + 20 - zeros))
}

#[inline(always)]
pub fn add(a: u16, b: u16, mode: u32, underflow_unmasked: u32) -> Outcome {
    if are_normal(mode, &[a, b]) {
        if let Some(outcome) = sum(a, b, mode) {
            return outcome;
        }
    }
    double::add(a, b, mode, underflow_unmasked)
}

#[inline(always)]
pub fn subtract(a: u16, b: u16, mode: u32, underflow_unmasked: u32) -> Outcome {
    if are_normal(mode, &[a, b]) {
        if let Some(outcome) = sum(a, b ^ SIGN, mode) {
            return outcome;
        }
    }
    double::subtract(a, b, mode, underflow_unmasked)
}

#[inline(always)]
pub fn fused_multiply_add(a: u16, b: u16, c: u16, mode: u32, underflow_unmasked: u32) -> Outcome {
    if !are_normal(mode, &[a, b, c]) {
        return double::fused_multiply_add(a, b, c, mode, underflow_unmasked);
    }
    let i = (exponent(a) + exponent(b)) as i32 - 26;
    let j = exponent(c) as i32 - 1;
    let low = i.min(j);
    let x = u64::from(significand(a) * significand(b)) << (i - low);
    let y = u64::from(significand(c)) << (j - low);
    let (larger, smaller) = (x.max(y), x.min(y));
    let digits = if (a ^ b ^ c) & SIGN == 0 {
        larger + smaller
    } else {
        larger - smaller
    };
    let sign = if x < y { c } else { a ^ b } & SIGN;
    let zeros = digits.leading_zeros();
    let e = 53 - zeros as i32 + low;
    if digits == 0 || e < 0 {
        return double::fused_multiply_add(a, b, c, mode, underflow_unmasked);
    }
    Rounding::of(mode, sign).packed(thirteen(digits << zeros), e as u32)
}

/// By the fraction and the exponent's lowest bit: 13 digits of the root, as `packed` takes them.
static ROOTS: [u16; 2048] = roots();

const fn roots() -> [u16; 2048] {
    let mut table = [0; 2048];
    let mut place = 0;
    while place < 2048 {
        let radicand = ((place as u32 & 1023) + 1024) << if place < 1024 { 12 } else { 13 };
        let mut root = 2048_u32;
        while (root + 1) * (root + 1) <= radicand {
            root += 1;
        }
        table[place] = (root * 2 + (root * root != radicand) as u32) as u16;
        place += 1;
    }
    table
}

#[inline(always)]
pub fn square_root(a: u16, mode: u32, underflow_unmasked: u32) -> Outcome {
    if !are_normal(mode, &[a]) || a & SIGN != 0 {
        return double::square_root(a, mode, underflow_unmasked);
    }
    let digits = u32::from(ROOTS[usize::from(a & 0x07FF ^ 0x0400)]);
    Rounding::of(mode, 0).packed(digits, (exponent(a) + 13) / 2)
}
