//! Minimum, maximum and the 32 predicates of singles by this machine's processor, which nearly all
//! processors have that know no halves. The predicates are the same (R6.28), so they speak for those
//! of halves too: each half has a single of its own kind, and these stand in the order of their
//! halves.

use super::pairs::{Lanes, Pairs};
use crate::case::{Case, Operation, Outcome};
use crate::machine::ALL_MASKED;
use std::arch::asm;
use std::array::from_fn;

/// Whether the processor has VCMPPS.
pub fn are_here() -> bool {
    is_x86_feature_detected!("avx")
}

/// A single of the same sign and kind: a subnormal for a subnormal, a quiet NaN for a quiet one. All
/// subnormals lie below all others, so the order is kept, though the values are not.
fn single_of(half: u16) -> u32 {
    let [sign, exponent, fraction] = [half >> 15, half >> 10 & 31, half & 0x03FF].map(u32::from);
    let magnitude = match exponent {
        0 => fraction,
        31 => 255 << 23 | fraction << 13,
        _ => (exponent + 112) << 23 | fraction << 13,
    };
    sign << 31 | magnitude
}

type Singles = [u32; 32];

/// The bits of 32 results, and the control word after.
type OnSingles = fn(&Singles, &Singles, control: u32) -> (Singles, u32);

/// Eight lanes at a time. The host's control word is set aside and brought back.
macro_rules! on_singles {
    ($instruction:expr) => {
        |a: &Singles, b: &Singles, control: u32| {
            let (mut control, mut host) = (control, 0_u32);
            let mut results = [0; 32];
            // Safety: `are_here` has said that the instructions exist; 128 bytes stand behind each
            // of the first three pointers, 4 behind the others, and what is changed is named, the
            // upper halves of all registers too.
            unsafe {
                asm!(
                    "stmxcsr [{host}]",
                    "ldmxcsr [{control}]",
                    "2:",
                    "vmovups ymm0, [{a} + {at}]",
                    "vmovups ymm1, [{b} + {at}]",
                    $instruction,
                    "vmovups [{results} + {at}], ymm0",
                    "add {at}, 32",
                    "cmp {at}, 128",
                    "jne 2b",
                    "stmxcsr [{control}]",
                    "ldmxcsr [{host}]",
                    "vzeroupper",
                    a = in(reg) a,
                    b = in(reg) b,
                    results = in(reg) &mut results,
                    at = inout(reg) 0_u64 => _,
                    control = in(reg) &mut control,
                    host = in(reg) &mut host,
                    out("xmm0") _, out("xmm1") _, out("xmm2") _, out("xmm3") _, out("xmm4") _,
                    out("xmm5") _, out("xmm6") _, out("xmm7") _, out("xmm8") _, out("xmm9") _,
                    out("xmm10") _, out("xmm11") _, out("xmm12") _, out("xmm13") _,
                    out("xmm14") _, out("xmm15") _,
                    options(nostack),
                );
            }
            (results, control)
        }
    };
}

macro_rules! predicates {
    ($($number:literal)*) => {
        [$(on_singles!(concat!("vcmpps ymm0, ymm0, ymm1, ", $number))),*]
    };
}

const COMPARE: [OnSingles; 32] = predicates!(
    0 1 2 3 4 5 6 7 8 9 10 11 12 13 14 15 16 17 18 19 20 21 22 23 24 25 26 27 28 29 30 31
);
const MINIMUM: OnSingles = on_singles!("vminps ymm0, ymm0, ymm1");
const MAXIMUM: OnSingles = on_singles!("vmaxps ymm0, ymm0, ymm1");

/// What the processor makes of the singles of pairs in the lanes of `on`, said of their halves; the
/// others give 0. The case is to be one that does not round, and its operands count for nothing.
pub fn pairs(case: &Case, a: &Lanes, b: &Lanes, on: u32, control: u32) -> Pairs {
    let function = match case.operation {
        Operation::Minimum => MINIMUM,
        Operation::Maximum => MAXIMUM,
        _ => COMPARE[case.immediate as usize % 32],
    };
    let is_on = |lane: usize| on >> lane & 1 == 1;
    // Zeros raise nothing.
    let [x, y] =
        [a, b].map(|halves| from_fn(|lane| single_of(if is_on(lane) { halves[lane] } else { 0 })));
    let (results, control) = function(&x, &y, control);
    let half = |lane: usize| match case.operation {
        // All ones or none.
        Operation::Compare => results[lane] as u16 & 1,
        _ if results[lane] == y[lane] => b[lane],
        _ if results[lane] == x[lane] => a[lane],
        _ => panic!("{case}, lane {lane}: {:08X} is neither", results[lane]),
    };
    let halves = from_fn(|lane| if is_on(lane) { half(lane) } else { 0 });
    Pairs { halves, control }
}

/// The same of a case's own operands.
pub fn answer(case: &Case) -> Outcome {
    let [a, b, _] = case.operands;
    let Pairs { halves, control } = pairs(case, &[a; 32], &[b; 32], 1, ALL_MASKED);
    Outcome {
        half: halves[0],
        flags: (control & 63) as u8,
        number: 0,
    }
}
