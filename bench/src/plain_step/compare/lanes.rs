//! What lanes of two sources come to. A lane is a few operations on numbers of 16 bits, without a
//! branch, and of the loops over all lanes the compiler makes vector instructions, for eight lanes
//! at a time; none is written by hand. Lanes are taken one by one where few are on or one of them
//! has a NaN, which is rare: a step of VCMPPH with 32 lanes takes almost five times as long so.

use super::{Register, Stored, LANES};
use crate::plain_compare::{self as plain, EQUAL, GREATER, LESS};
use ridgecrook_tests::case::{Outcome, DE};

/// Fewer lanes than that are done sooner one by one.
const FEW: u32 = 4;

/// All bits of a half but the sign.
const MAGNITUDE: u16 = 0x7FFF;

const BITS: [u16; 16] = [
    1, 2, 4, 8, 16, 32, 64, 128, 256, 512, 1024, 2048, 4096, 8192, 16384, 32768,
];

#[inline(always)]
fn half(lanes: &[[u8; 2]], j: usize) -> u16 {
    u16::from_le_bytes(lanes[j])
}

/// In 16 bits, as vector instructions compare them.
#[inline(always)]
fn ordered(half: u16) -> i16 {
    let sign = half as i16 >> 15;
    ((half & MAGNITUDE) as i16 ^ sign) - sign
}

#[inline(always)]
fn all_ones(yes: bool) -> u16 {
    if yes {
        u16::MAX
    } else {
        0
    }
}

/// These bits for each lane of a mask; 0 for all others.
#[inline(always)]
pub fn spread(lanes: u32, bits: u16) -> Register {
    let mut spread = [bits; LANES];
    let (low, high) = (lanes as u16, (lanes >> 16) as u16);
    for (j, bit) in BITS.iter().enumerate() {
        spread[j] &= all_ones(low & bit != 0);
        spread[16 + j] &= all_ones(high & bit != 0);
    }
    spread
}

/// Two sources, and the lanes that are on, one bit each.
#[derive(Clone, Copy)]
pub struct Sources<'a> {
    pub on: u32,
    pub first: &'a Stored,
    pub second: &'a Stored,
}

impl Sources<'_> {
    /// The flags of all lanes that are on; none where these are to be taken one by one.
    #[inline(always)]
    fn flags(self) -> Option<u8> {
        if self.on == u32::MAX {
            return self.flags_without_nan(&[MAGNITUDE; LANES]);
        }
        if self.on.count_ones() < FEW {
            return None;
        }
        self.flags_without_nan(&spread(self.on, MAGNITUDE))
    }

    /// Of the bits that are kept of each lane's halves; 0 raises nothing.
    #[inline(always)]
    fn flags_without_nan(self, kept: &Register) -> Option<u8> {
        let (mut signs, mut least) = (0, i16::MAX);
        for (j, kept) in kept.iter().enumerate() {
            let (m, n) = (half(self.first, j) & kept, half(self.second, j) & kept);
            // Below zero for a NaN.
            signs |= 0x7C00_u16.wrapping_sub(m) | 0x7C00_u16.wrapping_sub(n);
            // From the lowest number up for 1 and more; a zero becomes the highest.
            let lowered = |magnitude: u16| magnitude.wrapping_add(0x7FFF) as i16;
            least = least.min(lowered(m)).min(lowered(n));
        }
        let has_subnormal = least < i16::MIN + 0x03FF;
        (signs >> 15 == 0).then_some(u8::from(has_subnormal) * DE)
    }

    /// R5.11: the bits of lanes that are on, and all flags.
    #[inline(always)]
    pub fn mask(self, predicate: u8) -> (u32, u8) {
        let Some(flags) = self.flags() else {
            return self.mask_one_by_one(predicate);
        };
        let (f, s) = (self.first.as_chunks().0, self.second.as_chunks().0);
        let low = sixteen_bits(&f[0], &s[0], predicate);
        let high = sixteen_bits(&f[1], &s[1], predicate);
        ((low | high << 16) & self.on, flags)
    }

    #[inline(never)]
    fn mask_one_by_one(self, predicate: u8) -> (u32, u8) {
        let (mut mask, mut flags, mut left) = (0, 0, self.on);
        while left != 0 {
            let j = left.trailing_zeros() as usize % LANES;
            let outcome = plain::holds(half(self.first, j), half(self.second, j), predicate);
            mask |= u32::from(outcome.half) << j;
            flags |= outcome.flags;
            left &= left - 1;
        }
        (mask, flags)
    }

    /// The result of each lane that is on, anything for others, and all flags. The first half is
    /// picked where the two are in such an order; one pair by itself is done by `one`.
    #[inline(always)]
    pub fn picked(
        self,
        is_first: impl Fn(i16, i16) -> bool,
        one: impl Fn(u16, u16) -> Outcome,
    ) -> (Register, u8) {
        let Some(flags) = self.flags() else {
            return self.picked_one_by_one(one);
        };
        let mut results = [0; LANES];
        for (j, result) in results.iter_mut().enumerate() {
            let (a, b) = (half(self.first, j), half(self.second, j));
            let first = is_first(ordered(a), ordered(b));
            *result = if first { a } else { b };
        }
        (results, flags)
    }

    #[inline(never)]
    fn picked_one_by_one(self, one: impl Fn(u16, u16) -> Outcome) -> (Register, u8) {
        let pair = |j| (half(self.first, j), half(self.second, j));
        super::each(self.on, |j| one(pair(j).0, pair(j).1))
    }
}

/// The bits of lanes without a NaN.
#[inline(always)]
fn sixteen_bits(first: &[[u8; 2]; 16], second: &[[u8; 2]; 16], predicate: u8) -> u32 {
    let [less, equal, greater] = [LESS, EQUAL, GREATER].map(|bit| all_ones(predicate & bit != 0));
    let mut bits = 0;
    for (j, bit) in BITS.iter().enumerate() {
        let (x, y) = (ordered(half(first, j)), ordered(half(second, j)));
        let unlike = all_ones(x < y) & (less ^ equal) ^ all_ones(x > y) & (greater ^ equal);
        bits |= (unlike ^ equal) & bit;
    }
    u32::from(bits)
}
