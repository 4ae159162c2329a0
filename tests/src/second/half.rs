//! A half and its fields (R6.1 to R6.3).

pub const INFINITY: u16 = 0x7C00;
pub const LARGEST: u16 = 0x7BFF;

/// Fraction bit 9: set in a quiet NaN, clear in a signalling one.
const QUIET: u16 = 0x0200;

pub fn is_negative(half: u16) -> bool {
    half >> 15 == 1
}

/// The half without its sign. Magnitudes are in the order of the values that they stand for.
pub fn magnitude(half: u16) -> u16 {
    half & 0x7FFF
}

/// A magnitude with a sign.
pub fn signed(negative: bool, magnitude: u16) -> u16 {
    magnitude | u16::from(negative) << 15
}

pub fn is_nan(half: u16) -> bool {
    magnitude(half) > INFINITY
}

pub fn is_signalling(half: u16) -> bool {
    is_nan(half) && half & QUIET == 0
}

pub fn made_quiet(nan: u16) -> u16 {
    nan | QUIET
}

pub fn is_infinite(half: u16) -> bool {
    magnitude(half) == INFINITY
}

pub fn is_zero(half: u16) -> bool {
    magnitude(half) == 0
}

/// Exponent bits 0 and a fraction other than 0.
pub fn is_subnormal(half: u16) -> bool {
    (1..0x0400).contains(&magnitude(half))
}

/// The value of a finite magnitude in units of 2 to the -24: the fraction alone where the exponent
/// bits are 0, else 1024 and the fraction, shifted. That of 7C00 is 65,536 here, as if the
/// exponent went on.
pub fn units(magnitude: u16) -> u128 {
    let exponent = magnitude >> 10;
    let fraction = u128::from(magnitude & 0x03FF);
    if exponent == 0 {
        fraction
    } else {
        (1024 + fraction) << (exponent - 1)
    }
}
