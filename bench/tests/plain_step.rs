//! The plain step is worth timing only if it is right: it is held against the second program.

use ridgecrook_bench::plain_step;
use ridgecrook_tests::assemble::Encoding;
use ridgecrook_tests::case::Operation;
use ridgecrook_tests::coverage::Watched;
use ridgecrook_tests::machine::{Step, StepOutcome};
use ridgecrook_tests::random::{self, Random};
use ridgecrook_tests::random_step::Steps;
use ridgecrook_tests::second::encoding::{comparing_rows, scalar_rows, Listed};

fn outcome(before: &Step) -> StepOutcome {
    let mut after = before.clone();
    let answer = plain_step::step(&mut after.machine, &after.code, &after.memory);
    StepOutcome { answer, after }
}

#[test]
fn random_steps() {
    let mut watched = Watched::of(outcome, "plain: random steps, seed 4");
    let mut steps = Steps::seeded(4);
    for _ in 0..300_000 {
        watched.step(&steps.step());
    }
    let coverage = watched.finish(300_000, &[0, 1, 2, 3, 4, 5, 7, 8]);
    coverage.require(10);
}

/// A scalar instruction whose fields have any value, on few registers, and memory that ends with
/// the half that it may read, inside it or before it.
fn scalar_step(steps: &mut Steps, listed: &Listed) -> Step {
    let (mut machine, mut memory) = steps.start();
    let random = &mut steps.random;
    let [destination, first, second] = [0; 3].map(|_| random.one_of(&[1, 2, 30]));
    let displacement = random.within(-128, 127);
    let encoding = Encoding {
        zeroing: random.within(0, 1) as u8,
        length: random.within(0, 3) as u8,
        extra: random.within(0, 1) as u8,
        mask: random.within(0, 1) as u8,
        mode: random.one_of(&[1, 3]),
        rest: vec![displacement as u8],
        ..Encoding::registers(listed, destination, first, second)
    };
    let mut code = encoding.bytes();
    if random.once_in(8) {
        code.pop();
    }
    let base = usize::from(8 * encoding.b + encoding.rm);
    machine.general[base] = 600;
    machine.masks[1] = random.bits();
    // R3.13: a displacement counts in halves.
    memory.truncate((600 + 2 * displacement + random.within(0, 2)) as usize);
    Step {
        machine,
        code,
        memory,
    }
}

#[test]
fn scalar_steps() {
    let mut watched = Watched::of(outcome, "plain: scalar steps, seed 5");
    let mut steps = Steps::seeded(5);
    for listed in scalar_rows() {
        for _ in 0..8_000 {
            watched.step(&scalar_step(&mut steps, listed));
        }
    }
    watched.finish(64_000, &[0, 3, 5, 7, 8]);
}

/// An instruction that compares, whose fields have any value, on few registers; the destination is
/// below 8 in most cases.
fn comparing_encoding(random: &mut Random, listed: &Listed) -> Encoding {
    let [first, second] = [0; 2].map(|_| random.one_of(&[1, 2, 30]));
    let highest = random.one_of(&[7, 7, 7, 31]);
    let mut encoding = Encoding {
        zeroing: random.once_in(4).into(),
        length: random.within(0, 3) as u8,
        extra: random.within(0, 1) as u8,
        mask: random.within(0, 1) as u8,
        mode: random.one_of(&[1, 3]),
        ..Encoding::registers(listed, random.within(0, highest) as u8, first, second)
    };
    if encoding.mode == 1 {
        encoding.rest = vec![random.within(-4, 4) as u8];
    }
    encoding.immediate = encoding.immediate.map(|_| random.bits() as u8);
    encoding
}

/// None, few or many of the lanes.
fn mask(random: &mut Random) -> u64 {
    let any = random.bits();
    match random.within(0, 4) {
        0 => any << 32,
        1 => 1 << (any & 31),
        2 => any & random.bits() & random.bits(),
        3 => any,
        _ => any | random.bits() | random.bits(),
    }
}

/// Such a step: the words that it may read begin inside memory, or so that some of them wrap round
/// to address 0, and memory ends among them or behind; some codes lack their last byte.
fn comparing_step(steps: &mut Steps, listed: &Listed) -> Step {
    let (mut machine, mut memory) = steps.start();
    let random = &mut steps.random;
    let encoding = comparing_encoding(random, listed);
    let mut code = encoding.bytes();
    if random.once_in(8) {
        code.pop();
    }
    machine.masks[1] = mask(random);
    // R3.13: what a displacement counts in, and so many bytes are read too.
    let unit = match encoding.extra {
        1 => 2,
        _ => 16 << encoding.length,
    };
    let displacement = encoding.rest.first().map_or(0, |byte| *byte as i8 as i32);
    let wrapping = -2 * random.within(0, 32);
    let address = random.one_of(&[600, 600, 600, wrapping]);
    let base = usize::from(8 * encoding.b + encoding.rm);
    machine.general[base] = i64::from(address - unit * displacement) as u64;
    memory.truncate((address.max(0) + random.within(0, unit + 2)) as usize);
    Step {
        machine,
        code,
        memory,
    }
}

#[test]
fn comparing_steps() {
    let mut watched = Watched::of(outcome, "plain: steps that compare, seed 6");
    let mut steps = Steps::seeded(6);
    for listed in comparing_rows() {
        for _ in 0..40_000 {
            watched.step(&comparing_step(&mut steps, listed));
        }
    }
    let coverage = watched.finish(120_000, &[0, 3, 5, 7, 8]);
    let reached = |name: &str| name.starts_with("word ") || name.starts_with("lanes outside");
    coverage.require_of(1000, reached);
}

/// A comparison of lanes that are less, equal, greater and, where there are to be NaNs, unordered,
/// under any mask; with b exceptions are suppressed.
fn comparison_of_all_kinds(steps: &mut Steps, immediate: u8, extra: u8, nans: bool) -> Step {
    let (mut machine, memory) = steps.start();
    let random = &mut steps.random;
    machine.masks[1] = mask(random);
    for lane in 0..32 {
        let case = random::case(random, Operation::Compare);
        for (register, half) in [1, 2].into_iter().zip(case.operands) {
            let is_nan = half & 0x7FFF > 0x7C00;
            let infinity = half & 0xFC00;
            machine.set_lane(
                register,
                lane,
                if is_nan && !nans { infinity } else { half },
            );
        }
    }
    let encoding = Encoding {
        extra,
        mask: random.within(0, 1) as u8,
        immediate: Some(immediate),
        ..Encoding::registers(&comparing_rows()[2], 3, 1, 2)
    };
    Step {
        machine,
        code: encoding.bytes(),
        memory,
    }
}

/// R3.15, R6.28.
#[test]
fn every_immediate() {
    let mut watched = Watched::of(outcome, "plain: every immediate, seed 7");
    let mut steps = Steps::seeded(7);
    for immediate in 0..=255 {
        for (extra, nans) in [(0, false), (0, true), (1, false), (1, true)] {
            for _ in 0..20 {
                let step = comparison_of_all_kinds(&mut steps, immediate, extra, nans);
                watched.step(&step);
            }
        }
    }
    watched.finish(256 * 80, &[0, 8]);
}
