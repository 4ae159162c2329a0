//! Minimum, maximum and the 32 predicates, unproved and written for speed: halves are compared as
//! whole numbers, and only a NaN, which is rare, decides over a branch. Without that one a
//! comparison took a quarter longer on random halves and still more on tame ones.

use ridgecrook_tests::case::{Outcome, DE, IE};

const INFINITY: u32 = 0x7C00;

#[inline(always)]
fn magnitude(half: u16) -> u32 {
    u32::from(half & 0x7FFF)
}

/// R6.25: a number that compares as the half does, where that is no NaN; both zeros are 0.
#[inline(always)]
fn ordered(half: u16) -> i32 {
    let sign = i32::from(half as i16) >> 31;
    (magnitude(half) as i32 ^ sign) - sign
}

#[inline(always)]
fn is_unordered(a: u16, b: u16) -> bool {
    magnitude(a).max(magnitude(b)) > INFINITY
}

#[inline(always)]
fn done(half: u16, flags: u8) -> Outcome {
    Outcome {
        half,
        flags,
        number: 0,
    }
}

/// R6.27: DE for a subnormal operand; less 1, zero is a large number.
#[inline(always)]
fn denormal(a: u16, b: u16) -> u8 {
    let least = u32::min(magnitude(a).wrapping_sub(1), magnitude(b).wrapping_sub(1));
    u8::from(least < 0x03FF) * DE
}

/// R6.26: the first where it is the one asked for, and else the second.
#[inline(always)]
fn pick(first: bool, a: u16, b: u16) -> Outcome {
    if is_unordered(a, b) {
        return done(b, IE);
    }
    done(if first { a } else { b }, denormal(a, b))
}

#[inline(always)]
pub fn minimum(a: u16, b: u16) -> Outcome {
    pick(ordered(a) < ordered(b), a, b)
}

#[inline(always)]
pub fn maximum(a: u16, b: u16) -> Outcome {
    pick(ordered(a) > ordered(b), a, b)
}

/// Where a predicate holds, by a bit each, and whether it signals.
pub const LESS: u8 = 1;
pub const EQUAL: u8 = 2;
pub const GREATER: u8 = 4;
const UNORDERED: u8 = 8;
const SIGNALS: u8 = 16;

/// R6.28: the upper 16 are the lower 16 that signal where those do not, and the other way round.
static PREDICATES: [u8; 32] = predicates();

const fn predicates() -> [u8; 32] {
    let [l, e, g, u, s] = [LESS, EQUAL, GREATER, UNORDERED, SIGNALS];
    let lower = [
        e,
        l | s,
        l | e | s,
        u,
        l | g | u,
        e | g | u | s,
        g | u | s,
        l | e | g,
        e | u,
        l | u | s,
        l | e | u | s,
        0,
        l | g,
        e | g | s,
        g | s,
        l | e | g | u,
    ];
    let mut table = [0; 32];
    let mut place = 0;
    while place < 16 {
        table[place] = lower[place];
        table[place + 16] = lower[place] ^ s;
        place += 1;
    }
    table
}

/// R3.15: the low five bits of an immediate.
#[inline(always)]
pub fn predicate(immediate: u32) -> u8 {
    PREDICATES[immediate as usize % 32]
}

/// The half is 1 where the predicate holds.
#[inline(always)]
pub fn holds(a: u16, b: u16, predicate: u8) -> Outcome {
    if is_unordered(a, b) {
        return unordered(a, b, predicate);
    }
    let (x, y) = (ordered(a), ordered(b));
    let place = 1 + u32::from(x > y) - u32::from(x < y);
    done((u32::from(predicate) >> place & 1) as u16, denormal(a, b))
}

/// R6.27: a signalling NaN is one from 7C01 to 7DFF, but for its sign.
#[inline(always)]
fn unordered(a: u16, b: u16, predicate: u8) -> Outcome {
    let is_signalling = |half| (INFINITY + 1..0x7E00).contains(&magnitude(half));
    let is_invalid = predicate & SIGNALS != 0 || is_signalling(a) || is_signalling(b);
    let half = u16::from(predicate & UNORDERED != 0);
    done(half, u8::from(is_invalid) * IE)
}

#[inline(always)]
pub fn compare(a: u16, b: u16, immediate: u32) -> Outcome {
    holds(a, b, predicate(immediate))
}
