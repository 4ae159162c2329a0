//! Exact results (R6.16).

use std::cmp::Ordering;

/// `over / under`, or the square root of that.
pub struct Magnitude {
    over: u128,
    under: u128,
    is_root: bool,
}

/// An exact result other than zero.
pub struct Value {
    pub negative: bool,
    pub magnitude: Magnitude,
}

impl Magnitude {
    pub fn fraction(over: u128, under: u128) -> Magnitude {
        Magnitude {
            over,
            under,
            is_root: false,
        }
    }

    pub fn root(over: u128, under: u128) -> Magnitude {
        Magnitude {
            over,
            under,
            is_root: true,
        }
    }

    /// `count` times 2 to the `unit`.
    pub fn scaled(count: u128, unit: i32) -> Magnitude {
        if unit < 0 {
            Magnitude::fraction(count, times_power(1, -unit))
        } else {
            Magnitude::fraction(times_power(count, unit), 1)
        }
    }

    /// How this magnitude compares with `count` times 2 to the `unit`.
    pub fn compare(&self, count: u128, unit: i32) -> Ordering {
        if self.is_root {
            self.compare_fraction(count * count, 2 * unit)
        } else {
            self.compare_fraction(count, unit)
        }
    }

    /// How `over / under` compares with `count` times 2 to the `unit`, both multiplied out.
    fn compare_fraction(&self, count: u128, unit: i32) -> Ordering {
        let left = times_power(self.over, i32::max(-unit, 0));
        let right = times_power(count * self.under, i32::max(unit, 0));
        left.cmp(&right)
    }

    pub fn is_below(&self, count: u128, unit: i32) -> bool {
        self.compare(count, unit) == Ordering::Less
    }
}

/// `n` times 2 to the `power`; it stops where that does not fit, since a shift would lose bits.
fn times_power(n: u128, power: i32) -> u128 {
    n.checked_mul(1 << power)
        .expect("the exact results of halves fit 128 bits here")
}
