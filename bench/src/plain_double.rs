//! The plain arithmetic for any operands: finite ones go through f64. `plain` calls it for what is
//! not normal.

use ridgecrook_tests::case::{Outcome, DE, IE, OE, PE, UE, ZE};

const SIGN: u16 = 0x8000;
const INFINITY: u16 = 0x7C00;
const LARGEST: u16 = 0x7BFF;
const QUIET: u16 = 0x0200;
const INVALID: Outcome = done(0xFE00, IE);
const BAD_MODE: Outcome = Outcome {
    half: 0,
    flags: 0,
    number: 9,
};

const fn done(half: u16, flags: u8) -> Outcome {
    Outcome {
        half,
        flags,
        number: 0,
    }
}

#[inline]
fn is_zero(half: u16) -> bool {
    half & !SIGN == 0
}

#[inline]
fn is_finite(half: u16) -> bool {
    half & INFINITY != INFINITY
}

#[inline]
fn is_nan(half: u16) -> bool {
    half & !SIGN > INFINITY
}

/// DE for a subnormal operand; zero wraps to a large number.
#[inline]
fn denormal(half: u16) -> u8 {
    if (half & !SIGN).wrapping_sub(1) < 0x03FF {
        DE
    } else {
        0
    }
}

/// The first NaN of the operands, if there is one.
#[inline]
fn nan(operands: &[u16]) -> Option<Outcome> {
    let first = operands.iter().find(|&&half| is_nan(half))?;
    let is_signalling = |&half: &u16| is_nan(half) && half & QUIET == 0;
    let flags = if operands.iter().any(is_signalling) {
        IE
    } else {
        0
    };
    Some(done(first | QUIET, flags))
}

/// A finite half as the f64 of the same value.
#[inline]
fn value(half: u16) -> f64 {
    let magnitude = u64::from(half & !SIGN);
    let bits = if magnitude >= 0x0400 {
        // Move the exponent and change its bias from 15 to 1023.
        (magnitude << 42) + (1008 << 52)
    } else {
        (magnitude as f64 * (1.0 / 16_777_216.0)).to_bits()
    };
    f64::from_bits(bits | u64::from(half & SIGN) << 48)
}

/// The 42 fraction bits that an f64 has more than a half.
const LOW: u64 = (1 << 42) - 1;

/// What is added at those bits to round by mode and sign (positive, negative), before they are
/// cut off. In mode 0 the last bit that stays is added too.
const ROUNDING: [[u64; 2]; 4] = [[LOW >> 1, LOW >> 1], [0, LOW], [LOW, 0], [0, 0]];

/// The bits of 2 to the -14 as an f64.
const SMALLEST_NORMAL: u64 = 1009 << 52;

/// Rounds x, which is exact, or inexact so far below the bits of a half that it rounds alike.
#[inline]
fn round(x: f64, mode: u32, underflow_unmasked: u32, flags: u8) -> Outcome {
    let bits = x.to_bits();
    let negative = bits >> 63;
    let magnitude = bits & !(1 << 63);
    let sign = (negative as u16) << 15;
    let last = magnitude >> 42 & u64::from(mode == 0);
    let addition = ROUNDING[mode as usize & 3][negative as usize];
    let rounded = magnitude + addition + last;
    if magnitude < SMALLEST_NORMAL {
        let tiny = rounded < SMALLEST_NORMAL;
        return round_small(x, mode, tiny && underflow_unmasked != 0, tiny, flags);
    }
    let half = (rounded >> 42) - (1008 << 10);
    if half >= u64::from(INFINITY) {
        return overflow(sign, addition != 0, flags);
    }
    let inexact = if magnitude & LOW != 0 { PE } else { 0 };
    done(half as u16 | sign, flags | inexact)
}

/// An overflow becomes infinity where the mode rounds away from zero or to the nearest.
#[inline(never)]
fn overflow(sign: u16, outward: bool, flags: u8) -> Outcome {
    let half = if outward { INFINITY } else { LARGEST };
    done(sign | half, flags | OE | PE)
}

/// Rounds x where it is below 2 to the -14.
#[inline]
fn round_small(x: f64, mode: u32, underflow: bool, tiny: bool, flags: u8) -> Outcome {
    let bits = x.to_bits();
    let sign = (bits >> 48) as u16 & SIGN;
    let exponent = bits >> 52 & 0x07FF;
    if exponent == 0 {
        return done(sign, flags);
    }
    let significand = bits & ((1 << 52) - 1) | 1 << 52;
    // From 63 on nothing but the fact that x is not zero is left.
    let shift = u64::min(42 + 1009 - exponent, 63);
    let low = significand & ((1 << shift) - 1);
    let middle = 1 << (shift - 1);
    let count = (significand >> shift) as u16;
    let outward = match mode {
        0 => low > middle || low == middle && count & 1 == 1,
        1 => low != 0 && sign != 0,
        2 => low != 0 && sign == 0,
        _ => false,
    };
    let inexact = if low != 0 { PE } else { 0 };
    let underflow = if underflow || tiny && low != 0 { UE } else { 0 };
    done(
        (count + u16::from(outward)) | sign,
        flags | inexact | underflow,
    )
}

/// The zero that a sum is.
#[inline]
fn zero_sum(first: u16, second: u16, mode: u32, flags: u8) -> Outcome {
    let like_signs = (first ^ second) & SIGN == 0;
    let by_mode = if mode == 1 { SIGN } else { 0 };
    done(if like_signs { second & SIGN } else { by_mode }, flags)
}

/// a + b where `flip` is 0, a - b where it is the sign bit.
#[inline]
fn sum(a: u16, b: u16, flip: u16, mode: u32, underflow_unmasked: u32) -> Outcome {
    if mode > 3 {
        return BAD_MODE;
    }
    let flags = denormal(a) | denormal(b);
    if !is_finite(a) || !is_finite(b) {
        return sum_of_specials(a, b, flip, flags);
    }
    let b = b ^ flip;
    let x = value(a) + value(b);
    if x == 0.0 {
        return zero_sum(a, b, mode, flags);
    }
    round(x, mode, underflow_unmasked, flags)
}

#[inline(never)]
fn sum_of_specials(a: u16, b: u16, flip: u16, flags: u8) -> Outcome {
    if let Some(outcome) = nan(&[a, b]) {
        return outcome;
    }
    let b = b ^ flip;
    if !is_finite(a) && !is_finite(b) && a != b {
        return INVALID;
    }
    done(if is_finite(a) { b } else { a }, flags)
}

#[inline(never)]
pub fn add(a: u16, b: u16, mode: u32, underflow_unmasked: u32) -> Outcome {
    sum(a, b, 0, mode, underflow_unmasked)
}

#[inline(never)]
pub fn subtract(a: u16, b: u16, mode: u32, underflow_unmasked: u32) -> Outcome {
    sum(a, b, SIGN, mode, underflow_unmasked)
}

#[inline(never)]
pub fn multiply(a: u16, b: u16, mode: u32, underflow_unmasked: u32) -> Outcome {
    if mode > 3 {
        return BAD_MODE;
    }
    let flags = denormal(a) | denormal(b);
    if !is_finite(a) || !is_finite(b) {
        return product_of_specials(a, b, flags);
    }
    round(value(a) * value(b), mode, underflow_unmasked, flags)
}

#[inline(never)]
fn product_of_specials(a: u16, b: u16, flags: u8) -> Outcome {
    if let Some(outcome) = nan(&[a, b]) {
        return outcome;
    }
    if is_zero(a) || is_zero(b) {
        return INVALID;
    }
    done((a ^ b) & SIGN | INFINITY, flags)
}

#[inline(never)]
pub fn divide(a: u16, b: u16, mode: u32, underflow_unmasked: u32) -> Outcome {
    if mode > 3 {
        return BAD_MODE;
    }
    let flags = denormal(a) | denormal(b);
    if !is_finite(a) || !is_finite(b) || is_zero(b) {
        return quotient_of_specials(a, b, flags);
    }
    // 53 bits are more than twice 11 and 2: rounding them again gives what rounding once does.
    round(value(a) / value(b), mode, underflow_unmasked, flags)
}

#[inline(never)]
fn quotient_of_specials(a: u16, b: u16, flags: u8) -> Outcome {
    if let Some(outcome) = nan(&[a, b]) {
        return outcome;
    }
    let sign = (a ^ b) & SIGN;
    match (is_finite(a), is_finite(b)) {
        (false, false) => INVALID,
        (false, true) => done(sign | INFINITY, flags),
        (true, false) => done(sign, flags),
        (true, true) if is_zero(a) => INVALID,
        (true, true) => done(sign | INFINITY, ZE),
    }
}

#[inline(never)]
pub fn square_root(a: u16, mode: u32, underflow_unmasked: u32) -> Outcome {
    if mode > 3 {
        return BAD_MODE;
    }
    if !is_finite(a) || a & SIGN != 0 {
        return root_of_special(a);
    }
    round(value(a).sqrt(), mode, underflow_unmasked, denormal(a))
}

#[inline(never)]
fn root_of_special(a: u16) -> Outcome {
    match nan(&[a]) {
        Some(outcome) => outcome,
        None if a == SIGN || a == INFINITY => done(a, 0),
        None => INVALID,
    }
}

#[inline(never)]
pub fn fused_multiply_add(a: u16, b: u16, c: u16, mode: u32, underflow_unmasked: u32) -> Outcome {
    if mode > 3 {
        return BAD_MODE;
    }
    let flags = denormal(a) | denormal(b) | denormal(c);
    if !is_finite(a) || !is_finite(b) || !is_finite(c) {
        return fused_of_specials(a, b, c, flags);
    }
    let x = sum_to_odd(value(a) * value(b), value(c));
    if x == 0.0 {
        return zero_sum(a ^ b, c, mode, flags);
    }
    round(x, mode, underflow_unmasked, flags)
}

#[inline(never)]
fn fused_of_specials(a: u16, b: u16, c: u16, flags: u8) -> Outcome {
    if let Some(outcome) = nan(&[a, b, c]) {
        return outcome;
    }
    if is_finite(a) && is_finite(b) {
        return done(c, flags);
    }
    let product = (a ^ b) & SIGN | INFINITY;
    if is_zero(a) || is_zero(b) || !is_finite(c) && c != product {
        return INVALID;
    }
    done(product, flags)
}

/// x + y, rounded to an odd f64 where it is inexact, which rounds on as the exact sum does. What
/// the sum loses is had exactly by Knuth's two-sum.
#[inline]
fn sum_to_odd(x: f64, y: f64) -> f64 {
    let sum = x + y;
    let taken = sum - x;
    let lost = (x - (sum - taken)) + (y - taken);
    let bits = sum.to_bits();
    if lost == 0.0 || bits & 1 == 1 {
        return sum;
    }
    let outward = (lost > 0.0) == (sum > 0.0);
    f64::from_bits(if outward { bits + 1 } else { bits - 1 })
}
