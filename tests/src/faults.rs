//! Deliberate faults, put into an outcome of the library: what compares it with the processor is to
//! find each of them out wherever it changes something.

mod comparing;

use crate::case::{DE, IE, OE, PE, UE, ZE};
use crate::differences::on_a_processor;
use crate::machine::{Answer, Machine, Step, StepOutcome};
use crate::second;
use crate::second::encoding::{decode, Destination, Instruction, Second, Source};
use crate::second::step::{is_on, lane_cases, unmasked, EARLY};
use crate::witness::{verdict, Verdict};

/// What is wrong, and what it does to an outcome.
pub type Fault = (&'static str, fn(&Step, &mut StepOutcome));

pub fn all() -> impl Iterator<Item = &'static Fault> {
    FAULTS.iter().chain(&comparing::FAULTS)
}

/// How often a fault changed an outcome, and how often that was found out.
#[derive(Clone, Copy, Default)]
pub struct Tried {
    pub made: u64,
    pub found: u64,
}

/// Puts each fault into the library's outcome of a step; counts whether the verdict finds it out.
pub fn try_all(step: &Step, library: &StepOutcome, processor: &StepOutcome, counts: &mut [Tried]) {
    for ((_, spoil), count) in all().zip(counts) {
        let mut spoiled = library.clone();
        spoil(step, &mut spoiled);
        if spoiled != *library {
            count.made += 1;
            count.found += u64::from(verdict(step, &spoiled, processor) == Verdict::Differs);
        }
    }
}

const FAULTS: [Fault; 40] = [
    ("a half off by one, where PE is raised", |step, outcome| {
        if done_with(step, outcome, PE) {
            change_lane(step, outcome, |half| half ^ 1);
        }
    }),
    ("the sign of a zero", |step, outcome| {
        change_lane(step, outcome, |half| match half & 0x7FFF {
            0 => half ^ 0x8000,
            _ => half,
        });
    }),
    ("another payload in a NaN", |step, outcome| {
        change_lane(step, outcome, |half| match half & 0x7E00 {
            0x7E00 => half ^ 1,
            _ => half,
        });
    }),
    ("overflow to the other magnitude", |step, outcome| {
        change_lane(step, outcome, |half| match half & 0x7FFF {
            0x7BFF => half + 1,
            0x7C00 => half - 1,
            _ => half,
        });
    }),
    ("subnormal results as zeros", |step, outcome| {
        change_lane(step, outcome, |half| match half & 0x7C00 {
            0 => half & 0x8000,
            _ => half,
        });
    }),
    ("no IE", |step, outcome| drop_flag(step, outcome, IE)),
    ("no DE", |step, outcome| drop_flag(step, outcome, DE)),
    ("no ZE", |step, outcome| drop_flag(step, outcome, ZE)),
    ("no OE", |step, outcome| drop_flag(step, outcome, OE)),
    ("no UE", |step, outcome| drop_flag(step, outcome, UE)),
    ("no PE", |step, outcome| drop_flag(step, outcome, PE)),
    ("flags under embedded rounding", |step, outcome| {
        if instruction(step).is_some_and(|i| i.embedded_mode.is_some()) {
            outcome.after.machine.control |= u32::from(PE);
        }
    }),
    ("flags on 8 as the processor has them", |step, outcome| {
        *outcome = on_a_processor(step, outcome).0;
    }),
    ("the early stage forgotten", |step, outcome| {
        if outcome.answer.number == 8 {
            add_flags(step, outcome, |_, flags| flags);
        }
    }),
    ("the early stage by the lane alone", |step, outcome| {
        if outcome.answer.number == 8 {
            add_flags(step, outcome, |unmasked, flags| {
                match flags & EARLY & unmasked {
                    0 => flags,
                    _ => flags & EARLY,
                }
            });
        }
    }),
    ("an early stage by a masked exception", |step, outcome| {
        let new = outcome.after.machine.control & !step.machine.control;
        if outcome.answer.number == 8 && new & u32::from(EARLY) != 0 {
            let late = new & !u32::from(EARLY);
            outcome.after.machine.control &= !late;
        }
    }),
    ("no flags on 8", |step, outcome| {
        if outcome.answer.number == 8 {
            outcome.after.machine.control = step.machine.control;
        }
    }),
    ("8 taken as done", |step, outcome| {
        if outcome.answer.number == 8 {
            finish(step, outcome);
        }
    }),
    ("8 after the destination was written", |step, outcome| {
        if outcome.answer.number == 8 {
            change_destination(step, outcome);
        }
    }),
    ("8 by a flag left from before", |step, outcome| {
        let masks = instruction(step).map_or(0, |i| unmasked(&step.machine, &i));
        if outcome.answer.number == 0 && step.machine.control & u32::from(masks) != 0 {
            refuse(step, outcome, 8);
        }
    }),
    ("7 taken as done", |step, outcome| {
        if outcome.answer.number == 7 {
            finish(step, outcome);
        }
    }),
    ("7 for a lane that is off", |step, outcome| {
        let off = |i: &Instruction| (0..i.elements).any(|lane| !is_on(&step.machine, i, lane));
        let memory = step.code.get(5).is_some_and(|byte| byte >> 6 != 3);
        if outcome.answer.number == 0 && memory && instruction(step).is_some_and(|i| off(&i)) {
            refuse(step, outcome, 7);
        }
    }),
    ("lanes that are off as zeros without z", |step, outcome| {
        for_lanes(step, outcome, |machine, i, to, lane| {
            if lane < i.elements && !i.zeroing && !is_on(machine, i, lane) {
                machine.set_lane(to, lane, 0);
            }
        });
    }),
    ("bytes above the length kept", |step, outcome| {
        for_lanes(step, outcome, |machine, i, to, lane| {
            if !i.listed.is_scalar() && lane >= i.elements {
                machine.set_lane(to, lane, step.machine.lane(to, lane));
            }
        });
    }),
    ("a reserved encoding carried out", |step, outcome| {
        if outcome.answer.number == 5 {
            finish(step, outcome);
        }
    }),
    ("a mask or general register written", |_, outcome| {
        let machine = &mut outcome.after.machine;
        match machine.control & 1 {
            0 => machine.masks[7] ^= 1 << 63,
            _ => machine.general[4] ^= 1,
        }
    }),
    ("a length one too small", |_, outcome| {
        if outcome.answer.number == 0 {
            outcome.answer.length -= 1;
            outcome.after.machine.pointer = outcome.after.machine.pointer.wrapping_sub(1);
        }
    }),
    ("scalar: bytes 16 to 63 kept", |step, outcome| {
        copy_above(step, outcome, Source::Destination, 8..32, |_, _| true);
    }),
    ("scalar: lanes copied up to the length", |step, outcome| {
        let lanes = step
            .code
            .get(3)
            .map_or(8, |byte| 8 << (byte >> 5 & 3).min(2));
        copy_above(step, outcome, Source::First, 8..lanes, |_, i| {
            !i.listed.accumulates()
        });
    }),
    ("scalar: lanes 1 to 7 kept", |step, outcome| {
        copy_above(step, outcome, Source::Destination, 1..8, |_, _| true);
    }),
    (
        "scalar: lanes 1 to 7 from the second source",
        |step, outcome| {
            copy_above(step, outcome, Source::Second, 1..8, |_, _| true);
        },
    ),
    (
        "scalar: lanes 1 to 7 kept while lane 0 is off",
        |step, outcome| {
            copy_above(step, outcome, Source::Destination, 1..8, |_, i| {
                !is_on(&step.machine, i, 0)
            });
        },
    ),
    (
        "scalar: lanes 1 to 7 kept by their mask bits",
        |step, outcome| {
            copy_above(step, outcome, Source::Destination, 1..8, |lane, i| {
                i.mask != 0 && step.machine.masks[i.mask] >> lane & 1 == 0
            });
        },
    ),
    ("scalar: lanes 1 to 7 as zeros", |step, outcome| {
        for_lanes(step, outcome, |machine, i, to, lane| {
            if i.listed.is_scalar() && (1..8).contains(&lane) {
                machine.set_lane(to, lane, 0);
            }
        });
    }),
    ("scalar: lanes 1 to 7 as zeros with z", |step, outcome| {
        for_lanes(step, outcome, |machine, i, to, lane| {
            if i.listed.is_scalar() && i.zeroing && (1..8).contains(&lane) {
                machine.set_lane(to, lane, 0);
            }
        });
    }),
    (
        "scalar: lanes 1 to 7 of a fused one from the first source",
        |step, outcome| {
            copy_above(step, outcome, Source::First, 1..8, |_, i| {
                i.listed.accumulates()
            });
        },
    ),
    (
        "scalar: NaNs in lanes 1 to 7 made quiet",
        |step, outcome| {
            for_lanes(step, outcome, |machine, i, to, lane| {
                let half = machine.lane(to, lane);
                let is_nan = half & 0x7FFF > 0x7C00;
                if i.listed.is_scalar() && is_nan && lane > 0 {
                    machine.set_lane(to, lane, half | 0x0200);
                }
            });
        },
    ),
    (
        "scalar: 8 after lanes 1 to 7 were copied",
        |step, outcome| {
            let scalar =
                instruction(step).filter(|i| i.listed.is_scalar() && !i.listed.accumulates());
            if let Some(i) = scalar.filter(|_| outcome.answer.number == 8) {
                let to = i.written_vector().expect("a scalar row");
                for lane in 1..8 {
                    let half = step.machine.lane(i.first, lane);
                    outcome.after.machine.set_lane(to, lane, half);
                }
            }
        },
    ),
    (
        "scalar: 7 for a word that lane 0 off does not read",
        |step, outcome| {
            let off = |i: &Instruction| i.listed.is_scalar() && !is_on(&step.machine, i, 0);
            if outcome.answer.number == 0 && instruction(step).is_some_and(|i| off(&i)) {
                fault_without_mask(step, outcome);
            }
        },
    ),
    ("scalar: as if packed", |step, outcome| {
        if instruction(step).is_some_and(|i| i.listed.is_scalar()) {
            *outcome = as_packed(step);
        }
    }),
];

/// Copies lanes of a scalar row that is done from a register as it was, where they are chosen.
fn copy_above(
    step: &Step,
    outcome: &mut StepOutcome,
    from: Source,
    lanes: std::ops::Range<usize>,
    chosen: impl Fn(usize, &Instruction) -> bool,
) {
    for_lanes(step, outcome, |machine, i, to, lane| {
        let register = match (from, i.second) {
            (Source::Destination, _) => to,
            (Source::First, _) => i.first,
            (Source::Second, Second::Register(second)) => second,
            (Source::Second, _) => return,
        };
        if i.listed.is_scalar() && lanes.contains(&lane) && chosen(lane, i) {
            machine.set_lane(to, lane, step.machine.lane(register, lane));
        }
    });
}

/// Where the step with no mask would have answer 7, the step has it.
fn fault_without_mask(step: &Step, outcome: &mut StepOutcome) {
    let mut unmasked = step.clone();
    unmasked.code[3] &= !0x87;
    if second::step(&unmasked).answer.number == 7 {
        refuse(step, outcome, 7);
    }
}

/// What the packed row of the same operation gives, by the second program, but with the step's own
/// bytes.
fn as_packed(step: &Step) -> StepOutcome {
    let mut packed = step.clone();
    match packed.code[2] & 3 {
        2 => packed.code[2] &= !3,
        _ => packed.code[4] &= !1,
    }
    let mut outcome = second::step(&packed);
    outcome.after.code = step.code.clone();
    outcome
}

fn instruction(step: &Step) -> Option<Instruction> {
    decode(&step.code).ok()
}

/// The instruction of a step that is done.
fn done(step: &Step, outcome: &StepOutcome) -> Option<Instruction> {
    instruction(step).filter(|_| outcome.answer.number == 0)
}

/// Whether the step is done and has raised a flag that was not there before.
fn done_with(step: &Step, outcome: &StepOutcome, flag: u8) -> bool {
    let new = outcome.after.machine.control & !step.machine.control;
    outcome.answer.number == 0 && new & u32::from(flag) != 0
}

/// Sets flags of each lane that is on, as they are picked by those unmasked from the lane's own.
fn add_flags(step: &Step, outcome: &mut StepOutcome, pick: impl Fn(u8, u8) -> u8) {
    let instruction = instruction(step).expect("it was answered with 0 or 8");
    let unmasked = unmasked(&step.machine, &instruction);
    for case in lane_cases(step, &instruction).expect("its memory is there") {
        let flags = pick(unmasked, second::answer(&case).flags);
        outcome.after.machine.control |= u32::from(flags);
    }
}

fn drop_flag(step: &Step, outcome: &mut StepOutcome, flag: u8) {
    let new = outcome.after.machine.control & !step.machine.control;
    outcome.after.machine.control &= !(new & u32::from(flag));
}

/// Goes through the 32 lanes of the vector register that a step has written, with its number.
fn for_lanes(
    step: &Step,
    outcome: &mut StepOutcome,
    change: impl Fn(&mut Machine, &Instruction, usize, usize),
) {
    let instruction = done(step, outcome);
    let written = instruction.as_ref().and_then(Instruction::written_vector);
    if let (Some(instruction), Some(to)) = (instruction, written) {
        for lane in 0..32 {
            change(&mut outcome.after.machine, &instruction, to, lane);
        }
    }
}

/// Changes the halves of the lanes that are on.
fn change_lane(step: &Step, outcome: &mut StepOutcome, change: impl Fn(u16) -> u16) {
    for_lanes(step, outcome, |machine, i, to, lane| {
        if is_on(machine, i, lane) {
            machine.set_lane(to, lane, change(machine.lane(to, lane)));
        }
    });
}

/// Changes the lowest lane of the destination, or its bit, whatever the answer is.
fn change_destination(step: &Step, outcome: &mut StepOutcome) {
    let machine = &mut outcome.after.machine;
    match instruction(step).map(|i| i.destination) {
        Some(Destination::Vector(number)) => {
            let half = machine.lane(number, 0);
            machine.set_lane(number, 0, half ^ 0x4000);
        }
        Some(Destination::Mask(number)) => machine.masks[number] ^= 1,
        None => {}
    }
}

/// Done, with everything as it stands.
fn finish(step: &Step, outcome: &mut StepOutcome) {
    let length = instruction(step).map_or(6, |i| i.length as u32);
    let pointer = step.machine.pointer.wrapping_add(u64::from(length));
    outcome.answer = Answer { number: 0, length };
    outcome.after.machine.pointer = pointer;
}

fn refuse(step: &Step, outcome: &mut StepOutcome, number: u32) {
    outcome.after = step.clone();
    outcome.answer = Answer { number, length: 0 };
}

#[cfg(test)]
mod tests {
    use super::*;
    use crate::witness::WitnessSteps;

    /// Where no processor is: the second program and the known difference stand in its place, and
    /// the second program in the library's.
    #[test]
    fn each_fault_is_made_and_found_out() {
        let mut steps = WitnessSteps::seeded(2, false);
        let mut counts = vec![Tried::default(); all().count()];
        for _ in 0..12_000 {
            let (step, _) = steps.step();
            let by_rules = second::step(&step);
            let (processor, _) = on_a_processor(&step, &by_rules);
            try_all(&step, &by_rules, &processor, &mut counts);
        }
        for ((name, _), Tried { made, found }) in all().zip(counts) {
            assert!(made > 0, "{name}: never made");
            assert_eq!(found, made, "{name}: made, and not found out");
        }
    }
}
