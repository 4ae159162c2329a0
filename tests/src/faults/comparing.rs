//! Faults of the rows that compare: VMINPH, VMAXPH, VCMPPH.

use super::{add_flags, done, instruction, refuse, Fault};
use crate::case::{Case, Operation, DE, IE};
use crate::machine::{Step, StepOutcome};
use crate::second;
use crate::second::encoding::{Base, Destination, Instruction, Second};
use crate::second::step::{lane_cases, lanes_on};

pub const FAULTS: [Fault; 21] = [
    ("compare: a bit of the mask flipped", |step, outcome| {
        change_mask(step, outcome, |i, _, new| {
            match lanes_on(&step.machine, i)[..] {
                [.., last] => new ^ 1 << last,
                [] => new,
            }
        });
    }),
    (
        "compare: bits of lanes that are off kept",
        |step, outcome| {
            change_mask(step, outcome, |i, old, new| {
                let on = lanes_on(&step.machine, i);
                let on = on.iter().fold(0, |all, lane| all | 1_u64 << lane);
                new | old & within(i) & !on
            });
        },
    ),
    ("compare: bits above the length kept", |step, outcome| {
        change_mask(step, outcome, |i, old, new| {
            new | old & 0xFFFF_FFFF & !within(i)
        });
    }),
    ("compare: bits 32 to 63 kept", |step, outcome| {
        change_mask(step, outcome, |_, old, new| new | old >> 32 << 32);
    }),
    ("compare: ones above the length", |step, outcome| {
        change_mask(step, outcome, |i, _, new| new | !within(i));
    }),
    ("compare: another mask written", |step, outcome| {
        if let Some(number) = written_mask(step, outcome) {
            let masks = &mut outcome.after.machine.masks;
            masks[number ^ 1] = masks[number];
            masks[number] = step.machine.masks[number];
        }
    }),
    ("compare: a vector register written", |step, outcome| {
        if let Some(number) = written_mask(step, outcome) {
            let machine = &mut outcome.after.machine;
            machine.set_lane(number, 31, !machine.lane(number, 31));
        }
    }),
    ("compare: unordered the other way", |step, outcome| {
        change_results(step, outcome, |case, half| match case.operation {
            Operation::Compare if has_nan(case) => half ^ 1,
            _ => half,
        });
    }),
    ("compare: equal the other way", |step, outcome| {
        change_results(step, outcome, |case, half| match case.operands {
            [a, b, _] if case.operation == Operation::Compare && a == b && !has_nan(case) => {
                half ^ 1
            }
            _ => half,
        });
    }),
    ("compare: sources swapped", |step, outcome| {
        change_results(step, outcome, |case, _| {
            let [a, b, _] = case.operands;
            let operands = [b, a, 0];
            second::answer(&Case { operands, ..*case }).half
        });
    }),
    (
        "compare: six bits of the immediate read",
        |step, outcome| {
            change_results(step, outcome, |case, half| match case.immediate & 0x20 {
                0 => half,
                _ => 0,
            });
        },
    ),
    ("compare: zeros by their signs", |step, outcome| {
        change_results(step, outcome, |case, half| match case.operands {
            [a, b, _] if (a | b) & 0x7FFF == 0 => match case.operation {
                Operation::Minimum => a | b,
                Operation::Maximum => a & b,
                _ => half,
            },
            _ => half,
        });
    }),
    ("compare: a signalling NaN made quiet", |step, outcome| {
        change_results(step, outcome, |case, half| match half & 0x7FFF {
            0x7C01..0x7E00 if case.operation != Operation::Compare => half | 0x0200,
            _ => half,
        });
    }),
    ("compare: the first source for a NaN", |step, outcome| {
        change_results(step, outcome, |case, half| match case.operation {
            Operation::Minimum | Operation::Maximum if has_nan(case) => case.operands[0],
            _ => half,
        });
    }),
    ("compare: IE by every quiet NaN", |step, outcome| {
        change_flags(step, outcome, |case, flags| match has_nan(case) {
            true => flags | IE,
            false => flags,
        });
    }),
    ("compare: IE by signalling NaNs alone", |step, outcome| {
        change_flags(step, outcome, |case, flags| match has_signalling(case) {
            true => flags,
            false => flags & !IE,
        });
    }),
    ("compare: DE beside a NaN", |step, outcome| {
        let is_subnormal = |half: &u16| (1..0x0400).contains(&(half & 0x7FFF));
        change_flags(step, outcome, |case, flags| {
            match case.used_operands().iter().any(is_subnormal) {
                true => flags | DE,
                false => flags,
            }
        });
    }),
    ("compare: flags under suppression", |step, outcome| {
        if suppressed(step, outcome).is_some() {
            add_flags(step, outcome, |_, flags| flags);
        }
    }),
    ("compare: suppression stops", |step, outcome| {
        let unmasked = !(step.machine.control >> 7) as u8;
        let raised = suppressed(step, outcome).and_then(|i| second::step::raised(step, &i));
        if raised.is_some_and(|raised| raised & unmasked != 0) {
            refuse(step, outcome, 8);
        }
    }),
    (
        "compare: lane 0 for all under suppression",
        |step, outcome| {
            let Some(Second::Register(register)) = suppressed(step, outcome).map(|i| i.second)
            else {
                return;
            };
            let b = step.machine.lane(register, 0);
            change_results(step, outcome, |case, _| {
                let operands = [case.operands[0], b, 0];
                second::answer(&Case { operands, ..*case }).half
            });
        },
    ),
    (
        "compare: relative address without the immediate",
        |step, outcome| {
            if let Some(other) = relative_to_the_immediate(step) {
                *outcome = other;
            }
        },
    ),
];

/// What the step leaves if its address counts from a byte before the next instruction.
fn relative_to_the_immediate(step: &Step) -> Option<StepOutcome> {
    let instruction = instruction(step).filter(|i| i.immediate.is_some())?;
    let Second::Memory { address, .. } = instruction.second else {
        return None;
    };
    let mut other = step.clone();
    other.machine.pointer = step.machine.pointer.wrapping_sub(1);
    let mut outcome = second::step(&other);
    let pointer = &mut outcome.after.machine.pointer;
    *pointer = pointer.wrapping_add(1);
    (address.base == Base::NextInstruction).then_some(outcome)
}

/// The bits of the lanes that have an element.
fn within(instruction: &Instruction) -> u64 {
    (1 << instruction.elements) - 1
}

fn is_nan(half: u16) -> bool {
    half & 0x7FFF > 0x7C00
}

fn has_nan(case: &Case) -> bool {
    case.used_operands().iter().any(|&half| is_nan(half))
}

fn has_signalling(case: &Case) -> bool {
    let mut operands = case.used_operands().iter();
    operands.any(|&half| is_nan(half) && half & 0x0200 == 0)
}

/// The instruction of a step that compares and is done.
fn comparing(step: &Step, outcome: &StepOutcome) -> Option<Instruction> {
    done(step, outcome).filter(|i| !i.listed.operation.rounds())
}

fn suppressed(step: &Step, outcome: &StepOutcome) -> Option<Instruction> {
    comparing(step, outcome).filter(|i| i.hides_exceptions)
}

fn written_mask(step: &Step, outcome: &StepOutcome) -> Option<usize> {
    done(step, outcome)?.written_mask()
}

/// Changes the mask that was written, by what it held before and what it holds.
fn change_mask(
    step: &Step,
    outcome: &mut StepOutcome,
    change: impl Fn(&Instruction, u64, u64) -> u64,
) {
    let instruction = done(step, outcome);
    let written = instruction.as_ref().and_then(Instruction::written_mask);
    if let (Some(instruction), Some(number)) = (instruction, written) {
        let mask = &mut outcome.after.machine.masks[number];
        *mask = change(&instruction, step.machine.masks[number], *mask);
    }
}

/// Changes the results of lanes that are on, of a row that compares.
fn change_results(step: &Step, outcome: &mut StepOutcome, change: impl Fn(&Case, u16) -> u16) {
    let Some(instruction) = comparing(step, outcome) else {
        return;
    };
    let cases = lane_cases(step, &instruction).expect("its memory is there");
    let machine = &mut outcome.after.machine;
    for (lane, case) in lanes_on(&step.machine, &instruction).into_iter().zip(cases) {
        let half = change(&case, second::answer(&case).half);
        match instruction.destination {
            Destination::Vector(number) => machine.set_lane(number, lane, half),
            Destination::Mask(number) => {
                let others = machine.masks[number] & !(1 << lane);
                machine.masks[number] = others | u64::from(half) << lane;
            }
        }
    }
}

/// Changes the flags that lanes that are on raise, of a row that compares and sets them.
fn change_flags(step: &Step, outcome: &mut StepOutcome, change: impl Fn(&Case, u8) -> u8) {
    let comparing = comparing(step, outcome).filter(|i| !i.hides_exceptions);
    if let Some(instruction) = comparing {
        let cases = lane_cases(step, &instruction).expect("its memory is there");
        let flags = cases
            .iter()
            .map(|case| change(case, second::answer(case).flags));
        let all = flags.fold(0, |all, flags| all | flags);
        outcome.after.machine.control = step.machine.control | u32::from(all);
    }
}
