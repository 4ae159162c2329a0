//! One operation on 32 pairs at a time with every exception masked, for any thread and without
//! signals.

use crate::case::{Case, Operation};
use std::arch::asm;

pub type Lanes = [u16; 32];

/// What 32 pairs give: their halves, and the control word after.
#[derive(Clone, Copy, PartialEq, Eq)]
pub struct Pairs {
    pub halves: Lanes,
    pub control: u32,
}

/// `a op b` in the lanes of `on`; the others give 0. `control` is to mask every exception, and
/// `Processor::here` or `identify::missing` to have said that the instructions are there.
pub type OnPairs = fn(&Lanes, &Lanes, on: u32, control: u32) -> Pairs;

/// The host's control word is set aside and brought back, since the library may count on it.
macro_rules! on_pairs {
    ($name:ident, $instruction:literal) => {
        fn $name(a: &Lanes, b: &Lanes, on: u32, control: u32) -> Pairs {
            let mut halves = [0; 32];
            let (mut control, mut host) = (control, 0_u32);
            // Safety: the caller knows that the instructions exist; 64 bytes stand behind each of
            // the three pointers, 4 behind the others, and what is changed is named, the upper
            // halves of all registers too.
            unsafe {
                asm!(
                    "stmxcsr [{host}]",
                    "kmovd k1, {on:e}",
                    "vmovdqu16 zmm1, [{a}]",
                    "vmovdqu16 zmm2, [{b}]",
                    "ldmxcsr [{control}]",
                    concat!($instruction, " zmm0{{k1}}{{z}}, zmm1, zmm2"),
                    "stmxcsr [{control}]",
                    "ldmxcsr [{host}]",
                    "vmovdqu16 [{halves}], zmm0",
                    "vzeroupper",
                    a = in(reg) a,
                    b = in(reg) b,
                    on = in(reg) on,
                    halves = in(reg) &mut halves,
                    control = in(reg) &mut control,
                    host = in(reg) &mut host,
                    out("xmm0") _, out("xmm1") _, out("xmm2") _, out("xmm3") _, out("xmm4") _,
                    out("xmm5") _, out("xmm6") _, out("xmm7") _, out("xmm8") _, out("xmm9") _,
                    out("xmm10") _, out("xmm11") _, out("xmm12") _, out("xmm13") _,
                    out("xmm14") _, out("xmm15") _, out("k1") _,
                    options(nostack),
                );
            }
            Pairs { halves, control }
        }
    };
}

on_pairs!(add, "vaddph");
on_pairs!(subtract, "vsubph");
on_pairs!(multiply, "vmulph");
on_pairs!(divide, "vdivph");
on_pairs!(minimum, "vminph");
on_pairs!(maximum, "vmaxph");

/// The same of a comparison, whose bits become halves 1 and 0.
macro_rules! on_pairs_to_mask {
    ($name:ident, $immediate:literal) => {
        fn $name(a: &Lanes, b: &Lanes, on: u32, control: u32) -> Pairs {
            let (mut control, mut host, bits) = (control, 0_u32, on);
            let mask: u32;
            // Safety: as above.
            unsafe {
                asm!(
                    "stmxcsr [{host}]",
                    "kmovd k1, {bits:e}",
                    "vmovdqu16 zmm1, [{a}]",
                    "vmovdqu16 zmm2, [{b}]",
                    "ldmxcsr [{control}]",
                    concat!("vcmpph k2{{k1}}, zmm1, zmm2, ", $immediate),
                    "stmxcsr [{control}]",
                    "ldmxcsr [{host}]",
                    "kmovd {bits:e}, k2",
                    "vzeroupper",
                    a = in(reg) a,
                    b = in(reg) b,
                    bits = inout(reg) bits => mask,
                    control = in(reg) &mut control,
                    host = in(reg) &mut host,
                    out("xmm0") _, out("xmm1") _, out("xmm2") _, out("xmm3") _, out("xmm4") _,
                    out("xmm5") _, out("xmm6") _, out("xmm7") _, out("xmm8") _, out("xmm9") _,
                    out("xmm10") _, out("xmm11") _, out("xmm12") _, out("xmm13") _,
                    out("xmm14") _, out("xmm15") _, out("k1") _, out("k2") _,
                    options(nostack),
                );
            }
            let halves = std::array::from_fn(|lane| (mask >> lane & 1) as u16);
            Pairs { halves, control }
        }
    };
}

on_pairs_to_mask!(le_oq, "18");
on_pairs_to_mask!(nge_uq, "25");

/// What takes two halves, by a case with any operands; of the predicates only these two are there.
pub fn on_pairs(case: &Case) -> OnPairs {
    match (case.operation, case.immediate) {
        (Operation::Add, _) => add,
        (Operation::Subtract, _) => subtract,
        (Operation::Multiply, _) => multiply,
        (Operation::Divide, _) => divide,
        (Operation::Minimum, _) => minimum,
        (Operation::Maximum, _) => maximum,
        (Operation::Compare, 18) => le_oq,
        (Operation::Compare, 25) => nge_uq,
        _ => panic!("{case}: not on pairs"),
    }
}
