//! Where operands stand: every register number (R3.6), every addressing form (R3.9 to R3.13), every
//! edge of memory (R5.7); and which lanes take part (R5.1, R5.11).

use ridgecrook_tests::assemble::{Encoding, LANES_32, LANES_8};
use ridgecrook_tests::coverage::Watched;
use ridgecrook_tests::library;
use ridgecrook_tests::machine::{Machine, Step};
use ridgecrook_tests::random::Random;
use ridgecrook_tests::second::encoding::{LIST, PACKED, SCALAR};

/// The number of VMINPH in the list, and of VCMPPH.
const MINIMUM: usize = PACKED + SCALAR;
const COMPARE: usize = MINIMUM + 2;

/// LT_OS, which tells the sources apart, and TRUE_UQ.
const LESS: Option<u8> = Some(1);
const TRUE: Option<u8> = Some(15);

/// A machine in which every lane of every register is another half: 1,024 of them from 1.0 on.
fn numbered_machine() -> Machine {
    let mut machine = Machine::blank();
    for place in 0..1024 {
        machine.set_lane(place / 32, place % 32, 0x3C00 + place as u16);
    }
    machine
}

/// The same halves, but such that of two registers now the one and now the other has the larger: a
/// comparison of 32 lanes tells which registers it had.
fn scattered_machine() -> Machine {
    let mut machine = Machine::blank();
    for place in 0..1024 {
        let half = 0x3C00 + (421 * place % 1024) as u16;
        machine.set_lane(place / 32, place % 32, half);
    }
    machine
}

/// Each pair of destination, first and second source, for every instruction that writes a vector
/// register, of 8 lanes or scalar.
#[test]
fn every_pair_of_registers() {
    let mut watched = Watched::of(library::step_outcome, "every pair of registers");
    for (row, listed) in LIST[..COMPARE].iter().enumerate() {
        for pair in 0..1024_usize {
            let (a, b) = ((pair / 32) as u8, (pair % 32) as u8);
            let other = ((7 * pair / 32 + 5 * pair + row) % 32) as u8;
            for [destination, first, second] in [[a, b, other], [a, other, b], [other, a, b]] {
                let first = if listed.takes_first() { first } else { 0 };
                let mut encoding = Encoding::registers(listed, destination, first, second);
                encoding.length = LANES_8;
                let mut step = Step::of(encoding.bytes());
                step.machine = match listed.operation.rounds() {
                    true => numbered_machine(),
                    false => scattered_machine(),
                };
                watched.step(&step);
            }
        }
    }
    watched.finish(18 * 3 * 1024, &[0]);
}

/// Each pair of sources with each mask that may be written (R5.11), 32 lanes.
#[test]
fn every_pair_compared_to_every_mask() {
    let mut watched = Watched::of(library::step_outcome, "every pair compared");
    for place in 0..1024 * 8_usize {
        let [mask, first, second] = [place % 8, place / 8 % 32, place / 256].map(|n| n as u8);
        let encoding = Encoding {
            immediate: LESS,
            ..Encoding::registers(&LIST[COMPARE], mask, first, second)
        };
        let mut step = Step::of(encoding.bytes());
        step.machine = scattered_machine();
        step.machine.masks = [u64::MAX; 8];
        watched.step(&step);
    }
    watched.finish(8 * 1024, &[0]);
}

/// General registers that differ, such that most sums of two, scaled, lie in 4,000 bytes.
fn general(random: &mut Random) -> [u64; 16] {
    let mut general = [0; 16];
    for (number, register) in general.iter_mut().enumerate() {
        *register = (20 * number as i32 + random.within(0, 19)) as u64;
    }
    general
}

/// Memory in which every word, also one at an odd address, tells where it is.
fn told_memory(length: usize) -> Vec<u8> {
    let mut random = Random::seeded(4);
    let mut memory: Vec<u8> = (0..length).map(|_| random.bits() as u8).collect();
    // No exponent of all ones: no NaN and no infinity.
    memory.iter_mut().for_each(|byte| *byte &= 0xBF);
    memory
}

/// A row and its b, in every way that memory is read.
const FORMS: [(usize, u8); 6] = [
    (0, 0),
    (0, 1),
    (PACKED, 0),
    (MINIMUM, 0),
    (COMPARE, 0),
    (COMPARE, 1),
];

/// Every ModRM of memory forms, with every SIB byte where there is one, B and X, of 8 to 32 lanes,
/// by broadcast and scalar, without an immediate and with one.
#[test]
fn every_addressing_form() {
    let mut watched = Watched::of(library::step_outcome, "every addressing form");
    let mut random = Random::seeded(12);
    let memory = told_memory(4000);
    for form in 0..3 * 8 * 256_u32 {
        let (mode, rm, sib) = ((form >> 11) as u8, (form >> 8 & 7) as u8, form as u8);
        // Without a SIB byte the bits serve as displacement, and few of them are enough.
        if rm != 4 && sib % 64 != 0 {
            continue;
        }
        for bits in 0..4 * FORMS.len() {
            let (row, extra) = FORMS[bits >> 2];
            let displacement = [sib, random.within(-2, 14) as u8, 0, 0, 0, 0];
            let rest = if rm == 4 {
                &displacement[..]
            } else {
                &displacement[1..]
            };
            let encoding = Encoding {
                x: bits as u8 & 1,
                b: bits as u8 >> 1 & 1,
                extra,
                length: random.within(0, 2) as u8,
                immediate: LESS.filter(|_| LIST[row].immediate),
                ..Encoding::memory(&LIST[row], mode, rm, rest)
            };
            let mut step = Step::of(encoding.exact_bytes());
            step.machine.general = general(&mut random);
            step.machine.pointer = random.within(0, 200) as u64;
            step.memory = memory.clone();
            watched.step(&step);
        }
    }
    watched.finish(20_448, &[0, 7]);
}

const ENDS: [i32; 11] = [
    i32::MIN,
    i32::MIN + 1,
    -129,
    -128,
    -1,
    0,
    1,
    127,
    128,
    i32::MAX - 1,
    i32::MAX,
];

/// Displacements at the ends of their range, of 8 bits and of 32, so that the sum lies in memory.
#[test]
fn every_end_of_a_displacement() {
    let mut watched = Watched::of(library::step_outcome, "ends of displacements");
    for displacement in ENDS {
        for place in 0..6 * FORMS.len() {
            let (mode, length) = (1 + place as u8 / 3 % 2, place as u8 % 3);
            let (row, extra) = FORMS[place / 6];
            let n = match extra == 1 || LIST[row].is_scalar() {
                true => 2,
                false => 16 << length,
            };
            let bytes = displacement.to_le_bytes();
            let mut encoding = Encoding::memory(&LIST[row], mode, 0, &bytes);
            (encoding.length, encoding.extra) = (length, extra);
            encoding.immediate = LESS.filter(|_| LIST[row].immediate);
            let added = match mode {
                1 => i64::from(bytes[0] as i8) * n,
                _ => i64::from(displacement),
            };
            for target in [0_u64, 3, 66, 67, u64::MAX - 1] {
                let mut step = Step::of(encoding.exact_bytes());
                step.machine.general[0] = target.wrapping_sub(added as u64);
                step.memory = told_memory(130);
                watched.step(&step);
            }
        }
    }
    watched.finish(1980, &[0, 7]);
}

/// R5.4: addresses relative to the next instruction, behind the immediate where there is one: words
/// at and beyond both ends of memory, from pointers near 0 and near 2 to the 64.
#[test]
fn every_relative_address() {
    let mut watched = Watched::of(library::step_outcome, "relative addresses");
    for (row, extra) in FORMS {
        for place in 0..40 * 7_i32 {
            let (target, pointer) = (
                place % 40 - 4,
                [0, 1, 30, -1, -9, -12, -40][place as usize / 40],
            );
            let length = 10 + i32::from(LIST[row].immediate);
            let displacement = target - pointer - length;
            let encoding = Encoding {
                extra,
                length: LANES_8,
                mask: 3,
                immediate: LESS.filter(|_| LIST[row].immediate),
                ..Encoding::memory(&LIST[row], 0, 5, &displacement.to_le_bytes())
            };
            let mut step = Step::of(encoding.bytes());
            step.machine.pointer = i64::from(pointer) as u64;
            step.machine.masks[3] = 0b1001;
            step.memory = told_memory(30);
            watched.step(&step);
        }
    }
    watched.finish(280 * FORMS.len() as u64, &[0, 7]);
}

/// Row, length and b.
const EDGES: [(usize, u8, u8); 8] = [
    (0, LANES_8, 0),
    (0, LANES_32, 0),
    (0, LANES_32, 1),
    (PACKED, LANES_8, 0),
    (PACKED + SCALAR - 1, LANES_32, 0),
    (MINIMUM, LANES_8, 0),
    (COMPARE, LANES_32, 0),
    (COMPARE, LANES_32, 1),
];

/// Words of lanes that are on, at and beyond both ends of memories of few bytes, with every lane
/// on, with one, and with none; two forms are scalar, three compare.
#[test]
fn every_edge_of_memory() {
    let mut watched = Watched::of(library::step_outcome, "edges of memory");
    for length in [0, 1, 2, 3, 4, 15, 16, 17, 18, 63, 64, 65, 66] {
        let memory = told_memory(length);
        for address in -66..=length as i64 + 2 {
            for (row, lanes, extra) in EDGES {
                for mask in [
                    0_u64,
                    1,
                    2,
                    0x80,
                    0x8000_0000,
                    0xFFFF_FFFF_0000_0000,
                    u64::MAX,
                ] {
                    let mut encoding = Encoding::memory(&LIST[row], 0, 0, &[]);
                    (encoding.length, encoding.extra, encoding.mask) = (lanes, extra, 3);
                    encoding.immediate = LESS.filter(|_| LIST[row].immediate);
                    let mut step = Step::of(encoding.bytes());
                    step.machine.general[0] = address as u64;
                    step.machine.masks[3] = mask;
                    step.memory = memory.clone();
                    watched.step(&step);
                }
            }
        }
    }
    watched.finish(68_936, &[0, 7]);
}

/// Each bit of each mask register in each length, merged and zeroed, in register form, broadcast
/// and with embedded rounding, the same of scalar rows, with memory for broadcast, and of rows that
/// compare, with suppression. The other mask registers hold the opposite.
#[test]
fn every_mask_bit() {
    let mut watched = Watched::of(library::step_outcome, "every mask bit");
    for place in 0..64 * 8 * 3 * 2_usize {
        let (bit, mask) = (place % 64, place / 64 % 8);
        let (length, zeroing) = (place / 512 % 3, place / 1536);
        let (packed, scalar, comparing) = (place % 4, PACKED + place % 8, MINIMUM + place % 3);
        for (row, mode, extra) in [
            (packed, 3, 0),
            (packed, 3, 1),
            (packed, 0, 1),
            (scalar, 3, 0),
            (scalar, 3, 1),
            (scalar, 0, 0),
            (comparing, 3, 0),
            (comparing, 3, 1),
            (comparing, 0, 1),
        ] {
            let to_mask = LIST[row].to_mask;
            let encoding = Encoding {
                mode,
                extra,
                length: length as u8,
                zeroing: zeroing as u8 & u8::from(mask != 0 && !to_mask),
                mask: mask as u8,
                immediate: TRUE.filter(|_| to_mask),
                destination: if to_mask { (place / 5 % 8) as u8 } else { 9 },
                ..Encoding::registers(&LIST[row], 9, 10, 3)
            };
            let mut step = Step::of(encoding.bytes());
            step.machine = numbered_machine();
            step.machine.masks = [!(1 << bit); 8];
            step.machine.masks[mask] = 1 << bit;
            step.machine.general[3] = 1;
            step.memory = told_memory(3);
            watched.step(&step);
        }
    }
    watched.finish(27_648, &[0]);
}
