//! Refusals (R4.2 to R4.14): each alone, each before every later one, of a packed row, of a scalar
//! one and of the one that writes a mask; every cut, every opcode, map, prefix and W.
//!
//! No step gives answer 6 (R4.12): `step_random` fails if it is ever seen.

use ridgecrook_tests::assemble::Encoding;
use ridgecrook_tests::compare::failure;
use ridgecrook_tests::coverage::Watched;
use ridgecrook_tests::library;
use ridgecrook_tests::machine::{Answer, Machine, Step, StepOutcome};
use ridgecrook_tests::second::{
    self,
    encoding::{comparing_rows, scalar_rows, Listed, LIST, PACKED},
};

/// Something that calls for a refusal. The bytes are cut after all else is done to them.
struct Condition {
    name: &'static str,
    number: u32,
    /// How many of the bytes are left, where that is the condition.
    kept: Option<usize>,
    spoil: fn(&mut Step),
    /// Whether it is one of each of `ROWS`.
    of: [bool; 3],
}

const fn cut(name: &'static str, kept: usize) -> Condition {
    Condition {
        name,
        number: 3,
        kept: Some(kept),
        spoil: |_| (),
        of: [true; 3],
    }
}

const fn spoiled(name: &'static str, number: u32, spoil: fn(&mut Step)) -> Condition {
    Condition {
        name,
        number,
        kept: None,
        spoil,
        of: [true; 3],
    }
}

impl Condition {
    const fn of_packed(self) -> Condition {
        Condition {
            of: [true, false, false],
            ..self
        }
    }

    const fn of_scalar(self) -> Condition {
        Condition {
            of: [false, true, false],
            ..self
        }
    }

    const fn of_mask(self) -> Condition {
        Condition {
            of: [false, false, true],
            ..self
        }
    }

    const fn of_many_lanes(self) -> Condition {
        Condition {
            of: [true, false, true],
            ..self
        }
    }
}

/// In the order of R4.2, a group for each clause from R4.3 to R4.14; R4.12 has no condition.
const CONDITIONS: [&[Condition]; 11] = [
    &[
        spoiled("a vector file of 2,047 bytes", 1, |step| {
            step.machine.vectors.truncate(2047);
        }),
        spoiled("a vector file of 2,049 bytes", 1, |step| {
            step.machine.vectors.push(0);
        }),
    ],
    &[
        spoiled("control word bit 16", 2, |step| {
            step.machine.control |= 1 << 16;
        }),
        spoiled("control word bit 31", 2, |step| {
            step.machine.control |= 1 << 31;
        }),
    ],
    &[cut("no bytes", 0)],
    &[spoiled("byte 0", 4, |step| step.code[0] = 0x63)],
    &[
        cut("one byte", 1),
        cut("four bytes", 4),
        cut("five bytes", 5),
    ],
    &[
        spoiled("byte 1 bit 3", 5, |step| step.code[1] |= 8),
        spoiled("byte 2 bit 2", 5, |step| step.code[2] &= !4),
    ],
    &[
        spoiled("an unlisted map", 4, |step| step.code[1] ^= 4),
        spoiled("an unlisted prefix", 4, |step| step.code[2] ^= 1),
        spoiled("W", 4, |step| step.code[2] |= 0x80),
        spoiled("an unlisted opcode", 4, |step| step.code[4] ^= 2),
    ],
    &[
        spoiled("length bits 11", 5, |step| step.code[3] |= 0x60),
        spoiled("zeroing without a mask", 5, |step| step.code[3] |= 0x80),
        spoiled("a first source in V'", 5, |step| {
            step.code[3] &= !8;
            step.code[4] ^= 0x09;
        })
        .of_packed(),
        spoiled("a first source in vvvv", 5, |step| {
            step.code[2] &= !8;
            step.code[4] ^= 0x09;
        })
        .of_packed(),
        spoiled("b in memory form", 5, |step| step.code[3] |= 0x10).of_scalar(),
        spoiled("zeroing with a mask", 5, |step| {
            step.code[3] |= 0x81;
            step.machine.masks[1] = u64::MAX;
        })
        .of_mask(),
        spoiled("R", 5, |step| step.code[1] &= !0x80).of_mask(),
        spoiled("R'", 5, |step| step.code[1] &= !0x10).of_mask(),
    ],
    &[
        cut("no SIB", 6),
        cut("no displacement", 7),
        cut("half a displacement", 10),
        cut("no immediate", 11).of_mask(),
    ],
    &[
        spoiled("lane 1 outside memory", 7, |step| step.memory.truncate(2)).of_many_lanes(),
        spoiled("memory of one byte", 7, |step| step.memory.truncate(1)),
        spoiled("memory of no bytes", 7, |step| step.memory.clear()),
    ],
    // Lane 0 is invalid; no lane is before or after it in another way.
    &[spoiled("an unmasked exception", 8, |step| {
        step.machine.control = step.machine.control & !0x1F80 | 0x1F00;
    })],
];

/// VADDPH, VADDSH and VCMPPH.
const ROWS: [&Listed; 3] = [&LIST[0], &LIST[PACKED], &LIST[LIST.len() - 1]];

/// One of them, by its number, with the length bits of 32 lanes, no mask, at SIB and 32-bit
/// displacement (11 bytes, or 12 with EQ_OQ as immediate). Lane 0 of the r/m operand is a
/// signalling NaN, which is invalid by addition, root and comparison. The scalar row has no memory
/// but this word.
fn good(row: usize) -> Step {
    let encoding = Encoding::memory(ROWS[row], 0, 4, &[0x25, 0, 0, 0, 0]);
    let mut memory = vec![0; [64, 2, 64][row]];
    memory[..2].copy_from_slice(&0x7C01_u16.to_le_bytes());
    let mut machine = Machine::blank();
    machine.masks[0] = 0xA5;
    Step {
        machine,
        code: encoding.bytes(),
        memory,
    }
}

fn with(row: usize, conditions: &[&Condition]) -> Step {
    let mut step = good(row);
    for condition in conditions {
        (condition.spoil)(&mut step);
    }
    if let Some(kept) = conditions.iter().filter_map(|c| c.kept).min() {
        step.code.truncate(kept);
    }
    step
}

/// The answer is that number, and everything is left as it was but for the flags that 8 adds.
fn check(names: &str, before: &Step, number: u32) {
    let mut refused = StepOutcome {
        answer: Answer { number, length: 0 },
        after: before.clone(),
    };
    if number == 8 {
        refused.after.machine.control |= 1;
    }
    for outcome in [library::step_outcome(before), second::step(before)] {
        let agrees = outcome == refused;
        assert!(agrees, "{names}: {}", failure(before, &outcome, &refused));
    }
}

/// The conditions of a group that a row has.
fn of_row(group: &'static [Condition], row: usize) -> impl Iterator<Item = &'static Condition> {
    group.iter().filter(move |condition| condition.of[row])
}

#[test]
fn each_condition_is_refused() {
    for (row, length) in [11, 11, 12].into_iter().enumerate() {
        let done = Answer { number: 0, length };
        assert_eq!(second::step(&good(row)).answer, done);
        assert_eq!(library::step_outcome(&good(row)).answer, done);
        for condition in CONDITIONS.iter().flat_map(|group| of_row(group, row)) {
            check(condition.name, &with(row, &[condition]), condition.number);
        }
    }
}

/// Whether two conditions, the earlier first, can hold of one step: what is spoiled in a byte that
/// is cut off is not there. (What is not in the list is no root, and then has no needless first
/// source; the bits of one must not be refused before the list all the same.)
fn can_meet(earlier: &Condition, later: &Condition) -> bool {
    let place = match later.name {
        "byte 0" => 0,
        "byte 1 bit 3" | "an unlisted map" | "R" | "R'" => 1,
        "byte 2 bit 2" | "an unlisted prefix" | "W" => 2,
        "length bits 11" | "zeroing without a mask" | "b in memory form" => 3,
        "zeroing with a mask" => 3,
        "an unlisted opcode" | "a first source in V'" | "a first source in vvvv" => 4,
        _ => return true,
    };
    earlier.kept.is_none_or(|kept| kept > place)
}

/// Of two conditions of a row at once the earlier is answered; how many pairs there are.
fn answer_the_earlier(row: usize) -> u32 {
    let mut pairs = 0;
    for (place, group) in CONDITIONS.iter().enumerate() {
        for later_group in &CONDITIONS[place + 1..] {
            let both =
                of_row(group, row).flat_map(|a| of_row(later_group, row).map(move |b| (a, b)));
            for (earlier, later) in both.filter(|(a, b)| can_meet(a, b)) {
                let names = format!("{} and {}", earlier.name, later.name);
                check(&names, &with(row, &[earlier, later]), earlier.number);
                pairs += 1;
            }
        }
    }
    pairs
}

/// Whichever two they are; neighbours are among them.
#[test]
fn the_earlier_of_two_is_answered() {
    let pairs = [0, 1, 2].map(answer_the_earlier);
    assert_eq!(pairs, [277, 237, 323], "the pairs that can meet");
}

/// All of them from some place on, the first of each group or the last, without later cuts, which
/// would take away what is spoiled.
#[test]
fn the_first_of_many_is_answered() {
    for i in 0..6 * CONDITIONS.len() {
        let (row, last, place) = (i % 3, i / 3 % 2 == 1, i / 6);
        let of_group = |group: &&'static [Condition]| match last {
            true => of_row(group, row).last(),
            false => of_row(group, row).next(),
        };
        let from_here = CONDITIONS[place..].iter().filter_map(of_group);
        let counted = from_here.enumerate();
        let chosen = counted.filter(|(later, condition)| *later == 0 || condition.kept.is_none());
        let conditions: Vec<&Condition> = chosen.map(|(_, condition)| condition).collect();
        let first = conditions[0];
        check(first.name, &with(row, &conditions), first.number);
    }
}

/// R4.10: b in memory form of a scalar row, with any length bits, z and aaa, at any mod, with all
/// bytes and with none behind ModRM, with memory and without.
#[test]
fn every_scalar_row_with_b_in_memory() {
    for listed in scalar_rows() {
        for place in 0..4 * 2 * 8 * 3 * 8_u32 {
            let encoding = Encoding {
                extra: 1,
                length: place as u8 & 3,
                zeroing: (place >> 2) as u8 & 1,
                mask: (place >> 3) as u8 & 7,
                ..Encoding::memory(listed, (place >> 9) as u8, (place >> 6) as u8 & 7, &[0; 5])
            };
            let mut step = Step::of(encoding.bytes());
            step.machine.masks = [1; 8];
            check("b in memory form, no memory", &step, 5);
            step.memory = vec![0x3C; 16];
            check("b in memory form", &step, 5);
            step.code.truncate(6);
            check("b in memory form, cut", &step, 5);
        }
    }
}

/// R4.10: z with VCMPPH and its destinations above 7, with any length bits, b and aaa, at any mod,
/// with all bytes and with none behind ModRM, with memory and without.
#[test]
fn every_reserved_mask_destination() {
    let listed = &comparing_rows()[2];
    for place in 0..4 * 2 * 8 * 4 * 7_u32 {
        let wrong = (place / 256 + 1) as u8;
        let encoding = Encoding {
            length: place as u8 & 3,
            extra: (place >> 2) as u8 & 1,
            mask: (place >> 3) as u8 & 7,
            destination: wrong << 3 & 0x18 | place as u8 & 7,
            zeroing: wrong >> 2,
            ..Encoding::memory(listed, (place >> 6) as u8 & 3, place as u8 & 7, &[0; 5])
        };
        let mut step = Step::of(encoding.bytes());
        step.machine.masks = [1; 8];
        check("z or a destination above 7, no memory", &step, 5);
        step.memory = vec![0x3C; 64];
        check("z or a destination above 7", &step, 5);
        step.code.truncate(6);
        check("z or a destination above 7, cut", &step, 5);
    }
}

/// R4.11: VCMPPH at every mod and rm without its immediate, with memory or none, is cut short, and
/// with it is done or needs memory.
#[test]
fn every_missing_immediate() {
    let listed = &comparing_rows()[2];
    for place in 0..4 * 8 * 2 * 4_u32 {
        let (mode, rm) = (place as u8 & 3, (place >> 2) as u8 & 7);
        let encoding = Encoding {
            extra: (place >> 5) as u8 & 1,
            length: 2,
            mask: (place >> 6) as u8,
            ..Encoding::memory(listed, mode, rm, &[0x24, 0, 0, 0, 0])
        };
        let mut step = Step::of(encoding.exact_bytes());
        step.machine.masks = [1; 8];
        for outcome in [library::step_outcome(&step), second::step(&step)] {
            let number = if mode == 3 { 0 } else { 7 };
            assert_eq!(outcome.answer.number, number, "{step}");
        }
        step.code.pop();
        check("no immediate, no memory", &step, 3);
        step.memory = vec![0x3C; 256];
        check("no immediate", &step, 3);
    }
}

/// Every operand form, each with all its bytes, fewer, and more, which have no effect (R4.18).
#[test]
fn every_cut() {
    let mut watched = Watched::of(library::step_outcome, "every cut");
    for listed in &LIST {
        for modrm in 0..=255_u8 {
            for sib in [0x24, 0x25, 0x05, 0x98] {
                let rest = [sib, 0, 0, 0, 0, 0xAA, 0x62, 0xFF, 0xFF, 0xFF, 0xFF, 0xFF];
                let mut encoding = Encoding::memory(listed, modrm >> 6, modrm & 7, &rest);
                encoding.destination = modrm >> 3 & 7;
                let mut step = Step::of(encoding.bytes());
                step.memory = vec![0x3C; 300];
                // 17 or 18 bytes down to none: bytes after the instruction, then each cut of it.
                while step.code.pop().is_some() {
                    watched.step(&step);
                }
            }
        }
    }
    watched.finish(1024 * (18 * 18 + 19), &[0, 3, 7]);
}

/// Every opcode in every map, with every prefix and W, in register and memory form.
#[test]
fn every_opcode() {
    let mut watched = Watched::of(library::step_outcome, "every opcode");
    let mut done = 0;
    for place in 0..16_384_u32 {
        let encoding = Encoding {
            opcode: place as u8,
            map: (place >> 8 & 7) as u8,
            prefix: (place >> 11 & 3) as u8,
            w: (place >> 13 & 1) as u8,
            // A byte behind is an immediate, or has no effect.
            immediate: Some(0),
            ..Encoding::registers(&LIST[0], 1, 0, 3)
        };
        for mode in [0, 3] {
            let bytes = Encoding {
                mode,
                ..encoding.clone()
            }
            .bytes();
            let mut step = Step::of(bytes);
            step.memory = vec![0x3C; 64];
            let expected = watched.step(&step);
            done += u32::from(expected.answer.number == 0);
        }
    }
    watched.finish(32_768, &[0, 4]);
    assert_eq!(done, 38, "nineteen instructions, two forms");
}

/// Each of the first four bytes with every value, in register, memory and broadcast form, of which
/// a scalar row has not the last.
#[test]
fn every_prefix_byte() {
    let mut watched = Watched::of(library::step_outcome, "every prefix byte");
    for listed in &LIST {
        for place in 0..4 {
            for value in 0..=255 {
                for (mode, extra) in [(0, 0), (0, 1), (3, 0), (3, 1)] {
                    let mut encoding = Encoding::memory(listed, mode, 2, &[]);
                    encoding.extra = extra;
                    let mut step = Step::of(encoding.bytes());
                    step.code[place] = value;
                    step.memory = vec![0x3C; 40];
                    step.machine.masks = [0xFF; 8];
                    watched.step(&step);
                }
            }
        }
    }
    watched.finish(77_824, &[0, 4, 5, 7]);
}

/// Vector files of other sizes and control words with any high bit are refused, and left alone.
#[test]
fn sizes_and_control_words() {
    for size in [
        0, 1, 2, 63, 64, 1024, 2046, 2047, 2049, 2050, 4095, 4096, 65_536,
    ] {
        let mut step = good(0);
        step.machine.vectors = (0..size).map(|place| place as u8).collect();
        check("a size", &step, 1);
    }
    for bit in 16..32 {
        let mut step = good(1);
        step.machine.control = 1 << bit | 0x9FFF;
        check("a control word", &step, 2);
        step.machine.control = 1 << bit;
        check("a control word", &step, 2);
    }
}
