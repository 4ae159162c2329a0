//! Random cases. Uniform bits alone seldom cancel, tie, underflow or come close to overflow, so
//! most operands are chosen near one another or near such a border.

use crate::case::{Case, Operation};
use crate::machine::{Machine, VECTORS_SIZE};
use crate::second;

/// The generator splitmix64 (Steele, Lea, Flood): one 64-bit state, any seed.
pub struct Random {
    state: u64,
}

impl Random {
    pub fn seeded(seed: u64) -> Random {
        Random { state: seed }
    }

    pub fn bits(&mut self) -> u64 {
        self.state = self.state.wrapping_add(0x9E37_79B9_7F4A_7C15);
        let mut z = self.state;
        z = (z ^ z >> 30).wrapping_mul(0xBF58_476D_1CE4_E5B9);
        z = (z ^ z >> 27).wrapping_mul(0x94D0_49BB_1331_11EB);
        z ^ z >> 31
    }

    /// A number from `low` to `high`, both included.
    pub fn within(&mut self, low: i32, high: i32) -> i32 {
        let count = (high - low + 1) as u64;
        low + (self.bits() % count) as i32
    }

    pub fn half(&mut self) -> u16 {
        self.bits() as u16
    }

    pub fn bytes(&mut self, count: usize) -> Vec<u8> {
        (0..count).map(|_| self.bits() as u8).collect()
    }

    /// Any bits everywhere, but none above bit 15 of the control word.
    pub fn machine(&mut self) -> Machine {
        Machine {
            vectors: self.bytes(VECTORS_SIZE),
            masks: [0; 8].map(|_| self.bits()),
            general: [0; 16].map(|_| self.bits()),
            control: self.bits() as u32 & 0xFFFF,
            pointer: self.bits(),
        }
    }

    /// A half of either sign with the given exponent bits, or the nearest finite ones.
    fn half_with_exponent(&mut self, exponent: i32) -> u16 {
        let exponent = exponent.clamp(0, 30) as u16;
        (self.half() & 0x8000) | exponent << 10 | self.fraction()
    }

    /// Ten bits: any, or only a few high ones, or only a few low ones (these give ties and exact
    /// results).
    fn fraction(&mut self) -> u16 {
        let any = self.half() & 0x03FF;
        let cut = self.within(0, 10);
        match self.within(0, 2) {
            0 => any,
            1 => any >> cut << cut,
            _ => any & ((1 << cut) - 1),
        }
    }

    /// The half itself or one of its nearest neighbours.
    fn near(&mut self, half: u16) -> u16 {
        half.wrapping_add(self.within(-2, 2) as u16)
    }
}

/// A case of an operation in any mode, with underflow masked in half of the cases and otherwise
/// unmasked by any number but 0; or one that does not round.
pub fn case(random: &mut Random, operation: Operation) -> Case {
    if !operation.rounds() {
        return compared(random, operation);
    }
    let mut operands = match random.within(0, 3) {
        0 => [random.half(), random.half(), random.half()],
        1 => aimed(random, operation),
        _ => close(random, operation),
    };
    operands[operation.operand_count()..].fill(0);
    let mode = random.within(0, 3) as u32;
    let underflow_unmasked = match random.within(0, 3) {
        0 | 1 => 0,
        2 => 1,
        _ => (random.bits() as u32).max(1),
    };
    Case {
        mode,
        underflow_unmasked,
        ..Case::of(operation, operands)
    }
}

/// Zeros, subnormals, ones, infinities and NaNs of both kinds, which equal, exceed or cannot be
/// compared with one another.
const COMPARED: [u16; 14] = [
    0x0000, 0x8000, 0x0001, 0x8001, 0x83FF, 0x0400, 0x3C00, 0xBC00, 0x7C00, 0xFC00, 0x7C01, 0xFD00,
    0x7E00, 0xFFFF,
];

/// Any halves, one twice, neighbours of either sign, two of those above, or zeros of unlike signs;
/// any immediate.
fn compared(random: &mut Random, operation: Operation) -> Case {
    let any = random.half();
    let [a, b] = match random.within(0, 6) {
        0 => [any, random.half()],
        1 => [any, any],
        2 => [any, random.near(any) ^ random.half() & 0x8000],
        3 => [any, random.one_of(&COMPARED)],
        4 => [any & 0x8000, !any & 0x8000],
        _ => [(); 2].map(|_| random.one_of(&COMPARED)),
    };
    let immediate = match random.within(0, 1) {
        _ if operation != Operation::Compare => 0,
        0 => random.within(0, 31) as u32,
        _ => random.bits() as u32,
    };
    Case {
        immediate,
        ..Case::of(operation, [a, b, 0])
    }
}

/// Below are operands of what rounds.
fn not_here() -> ! {
    unreachable!("`compared` draws the operands")
}

/// Results at a border: zero, the smallest and largest subnormals and normals, and 1.
const TARGETS: [u16; 10] = [
    0x0000, 0x0001, 0x0002, 0x03FF, 0x0400, 0x0401, 0x3C00, 0x7BFE, 0x7BFF, 0x7C00,
];

/// Operands whose result is a target or close to one: the last operand is solved for, roughly.
fn aimed(random: &mut Random, operation: Operation) -> [u16; 3] {
    let target = TARGETS[random.within(0, 9) as usize] ^ random.half() & 0x8000;
    let [first, other] = [random.within(0, 30), random.within(0, 30)];
    let a = random.half_with_exponent(first);
    let b = random.half_with_exponent(other);
    let solution = match operation {
        Operation::Add => result(random, Operation::Subtract, target, a),
        Operation::Subtract => result(random, Operation::Subtract, a, target),
        Operation::Multiply => result(random, Operation::Divide, target, a),
        Operation::Divide => result(random, Operation::Divide, a, target),
        Operation::SquareRoot => result(random, Operation::Multiply, b, b),
        Operation::FusedMultiplyAdd => {
            let product = result(random, Operation::Multiply, a, b);
            result(random, Operation::Subtract, target, product)
        }
        Operation::Minimum | Operation::Maximum | Operation::Compare => not_here(),
    };
    let mut operands = [a, b, 0];
    operands[operation.operand_count() - 1] = random.near(solution);
    operands
}

/// A result of the second program in any mode.
fn result(random: &mut Random, operation: Operation, a: u16, b: u16) -> u16 {
    let case = Case {
        mode: random.within(0, 3) as u32,
        ..Case::of(operation, [a, b, 0])
    };
    second::answer(&case).half
}

/// Operands that are close to one another, or whose exponents bring the result near a border.
fn close(random: &mut Random, operation: Operation) -> [u16; 3] {
    let first = match random.within(0, 3) {
        0 => random.within(0, 2),
        1 => random.within(28, 30),
        _ => random.within(0, 30),
    };
    let a = random.half_with_exponent(first);
    match operation {
        Operation::Add | Operation::Subtract => [a, close_term(random, a, first), 0],
        Operation::Multiply => [a, factor(random, first), 0],
        Operation::Divide => {
            let wanted = border_exponent(random);
            [a, random.half_with_exponent(first - wanted + 15), 0]
        }
        Operation::SquareRoot => [a, 0, 0],
        Operation::FusedMultiplyAdd => {
            let b = factor(random, first);
            [a, b, addend(random, a, b)]
        }
        Operation::Minimum | Operation::Maximum | Operation::Compare => not_here(),
    }
}

/// A half whose exponent is within 13 of another's, or that half itself or a neighbour of it, of
/// either sign.
fn close_term(random: &mut Random, half: u16, exponent: i32) -> u16 {
    match random.within(0, 3) {
        0 => random.near(half) ^ (random.half() & 0x8000),
        _ => {
            let distance = random.within(-13, 13);
            random.half_with_exponent(exponent + distance)
        }
    }
}

/// The exponent bits of a result: around the subnormals, around overflow, or any.
fn border_exponent(random: &mut Random) -> i32 {
    match random.within(0, 3) {
        0 => random.within(0, 31),
        1 => random.within(29, 31),
        _ => random.within(-12, 1),
    }
}

/// A factor that brings the product to such an exponent.
fn factor(random: &mut Random, exponent: i32) -> u16 {
    let wanted = border_exponent(random);
    random.half_with_exponent(wanted - exponent + 15)
}

/// An addend that cancels a product almost or wholly, or whose exponent is near the product's.
fn addend(random: &mut Random, a: u16, b: u16) -> u16 {
    let product = result(random, Operation::Multiply, a, b);
    let exponent = i32::from(product >> 10 & 31);
    match random.within(0, 2) {
        0 => random.near(product ^ 0x8000),
        1 => close_term(random, product, exponent),
        _ => random.half(),
    }
}
