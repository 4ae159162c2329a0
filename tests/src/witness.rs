//! Steps that a processor can run, and the verdict on what library and processor say of them.

use crate::assemble::Encoding;
use crate::corners;
use crate::differences::{on_a_processor, Difference};
use crate::machine::{Step, StepOutcome, ALL_MASKED, VECTORS_SIZE};
use crate::random;
use crate::random_step::{set_operand, Steps};
use crate::recording::{Recorder, Recording};
use crate::second;
use crate::second::encoding::{decode, Instruction, LIST};
use crate::second::replay::CODE_LIMIT;
use crate::second::step::lanes_on;

/// How long the bytes are that the processor is to run; none where it cannot run the step. A
/// reserved encoding (R4.8, R4.10) is one that the processor refuses, but that APX gives the two
/// bits of R4.8 a meaning; what is not in the list is never run. An address that
/// is relative to a pointer far from 0 cannot be placed.
pub fn runnable(step: &Step, extended_prefix: bool) -> Option<usize> {
    let machine = &step.machine;
    if machine.vectors.len() != VECTORS_SIZE || machine.control > 0xFFFF {
        return None;
    }
    let relative = step.code.get(5).is_some_and(|byte| byte & 0xC7 == 5);
    if relative && (machine.pointer as i64).unsigned_abs() > 1 << 32 {
        return None;
    }
    match decode(&step.code) {
        Ok(instruction) => Some(instruction.length),
        Err(5) => {
            let first_bits = step.code[1] & 8 != 0 || step.code[2] & 4 == 0;
            (!(extended_prefix && first_bits)).then_some(step.code.len())
        }
        Err(_) => None,
    }
}

#[derive(Clone, Copy, Debug, PartialEq, Eq)]
pub enum Verdict {
    Agrees,
    Known(Difference),
    Differs,
}

/// Where the answer is 8, the library is also held against the second program, and the processor
/// against the rule of a known difference; else the two are to be the same.
pub fn verdict(step: &Step, library: &StepOutcome, processor: &StepOutcome) -> Verdict {
    if library.answer.number != 8 {
        return agreement(library == processor);
    }
    let by_rules = second::step(step);
    let (expected, name) = on_a_processor(step, &by_rules);
    match agreement(*library == by_rules && *processor == expected) {
        Verdict::Agrees => name.map_or(Verdict::Agrees, Verdict::Known),
        differs => differs,
    }
}

/// What the processor made of a step, as a recording of one item. Behind a reserved encoding there
/// may be more bytes than an item holds; they do not count (R4.18).
pub fn recording(step: &Step, length: usize, processor: &StepOutcome) -> Recording {
    let mut outcome = processor.clone();
    outcome.after.code.truncate(length.min(CODE_LIMIT));
    Recorder::of_step(step, outcome)
}

fn agreement(yes: bool) -> Verdict {
    if yes {
        Verdict::Agrees
    } else {
        Verdict::Differs
    }
}

/// A generator: every second step is the next of a grid, the others are `Steps::step`.
pub struct WitnessSteps {
    steps: Steps,
    corners: Vec<u16>,
    extended_prefix: bool,
    place: usize,
}

impl WitnessSteps {
    pub fn seeded(seed: u64, extended_prefix: bool) -> WitnessSteps {
        WitnessSteps {
            steps: Steps::seeded(seed),
            corners: corners::all(),
            extended_prefix,
            place: 0,
        }
    }

    /// A step, and how long the bytes are that the processor is to run.
    pub fn step(&mut self) -> (Step, usize) {
        self.place += 1;
        loop {
            let step = match self.place % 2 {
                0 => self.of_grid(self.place / 2),
                _ => self.steps.step(),
            };
            if let Some(length) = runnable(&step, self.extended_prefix) {
                return (step, length);
            }
        }
    }

    /// Every instruction in every shape, masking and mode, with none, each, all or some of the
    /// exceptions unmasked: 26,676 places. Of a scalar row the three lengths are to be alike, and
    /// the shapes of broadcast are reserved; so are zeroing with VCMPPH and its few destinations
    /// above k7 (R4.10).
    fn of_grid(&mut self, place: usize) -> Step {
        let (row, place) = (place % LIST.len(), place / LIST.len());
        let (shape, place) = (place % SHAPES, place / SHAPES);
        let (masking, place) = (place % 3, place / 3);
        let (mode, unmasking) = (place as u32 % 4, place as i32 / 4 % 9);
        let (machine, memory) = self.steps.start();
        let code = self.encoding(row, shape, masking).bytes();
        let mut step = Step {
            machine,
            code,
            memory,
        };
        let random = &mut self.steps.random;
        let bits = random.bits() as u32;
        let masks = match unmasking {
            0 => ALL_MASKED,
            7 => 0,
            8 => bits & ALL_MASKED,
            one => ALL_MASKED & !(0x40 << one),
        };
        let stale = if random.once_in(2) { 0 } else { bits & 63 };
        step.machine.control = masks | mode << 13 | stale | bits & 0x8040;
        match random.within(0, 3) {
            0 => self.aim_lanes(&mut step),
            1 => self.aim_one_lane(&mut step),
            // Equal halves and NaNs are too few among any.
            2 if !LIST[row].operation.rounds() => self.aim_lanes(&mut step),
            _ => {}
        }
        step
    }

    fn encoding(&mut self, row: usize, shape: usize, masking: usize) -> Encoding {
        let (random, listed) = (&mut self.steps.random, &LIST[row]);
        let [destination, first, second] = [(); 3].map(|_| random.bits() as u8 & 31);
        let destination = match listed.to_mask && !random.once_in(16) {
            true => destination & 7,
            false => destination,
        };
        let first = if listed.takes_first() { first } else { 0 };
        let mut encoding = Encoding::registers(listed, destination, first, second);
        if listed.immediate {
            encoding.immediate = Some(random.bits() as u8);
        }
        if masking > 0 {
            encoding.mask = random.within(1, 7) as u8;
            encoding.zeroing = u8::from(masking == 2);
        }
        if shape >= 9 {
            (encoding.extra, encoding.length) = (1, shape as u8 - 9);
            return encoding;
        }
        encoding.length = shape as u8 % 3;
        if shape >= 3 {
            encoding.mode = random.within(0, 1) as u8;
            encoding.rm = random.one_of(&[0, 1, 2, 3, 6, 7]);
            encoding.extra = shape as u8 / 6;
            encoding.rest = vec![random.within(0, 3) as u8; usize::from(encoding.mode)];
        }
        encoding
    }

    /// Gives each lane that has an element operands that bring its result near a border.
    fn aim_lanes(&mut self, step: &mut Step) {
        let Ok(instruction) = decode(&step.code) else {
            return;
        };
        for lane in 0..instruction.elements {
            let case = random::case(&mut self.steps.random, instruction.listed.operation);
            for (half, source) in case.operands.iter().zip(instruction.listed.operands) {
                set_operand(step, &instruction, *source, lane, *half);
            }
        }
    }

    /// Gives one lane that is on, if there is one, operands that raise something, and all others
    /// ones, so that its flags stand alone.
    fn aim_one_lane(&mut self, step: &mut Step) {
        let Ok(instruction) = decode(&step.code) else {
            return;
        };
        let operation = instruction.listed.operation;
        let chosen = self.lane_that_is_on(step, &instruction);
        for lane in (0..instruction.elements)
            .filter(|&lane| lane != chosen)
            .chain([chosen])
        {
            let random = &mut self.steps.random;
            let operands = match random.within(0, 3) {
                _ if lane != chosen => [0x3C00; 3],
                0 => [(); 3].map(|_| random.one_of(&self.corners)),
                // Powers of two, whose products and quotients are exact.
                1 => [(); 3].map(|_| random.half() & 0xFC00),
                // A divisor that is zero.
                2 => [0xFC00, 0x8000, 0xFC00].map(|bits| random.half() & bits),
                _ => random::case(random, operation).operands,
            };
            for (half, source) in operands.iter().zip(instruction.listed.operands) {
                set_operand(step, &instruction, *source, lane, *half);
            }
        }
    }

    /// A lane that is on, or any.
    fn lane_that_is_on(&mut self, step: &Step, instruction: &Instruction) -> usize {
        let on = lanes_on(&step.machine, instruction);
        match on[..] {
            [] => 0,
            _ => self.steps.random.one_of(&on),
        }
    }
}

/// Length bits 0, 1 and 2 of registers, of memory and broadcast, and four embedded modes.
const SHAPES: usize = 13;

#[cfg(test)]
mod tests {
    use super::*;
    use crate::coverage::Coverage;
    use crate::differences::stand_in;
    use crate::second::replay::{destination, replay, Report};
    use crate::second::step;

    /// Twice round the grid, by the second program: every row is done, every answer given that a
    /// processor has, and scalar rows and those that compare come in every way that is counted of
    /// whole code.
    #[test]
    fn the_steps_reach_every_row_and_form() {
        let mut steps = WitnessSteps::seeded(1, false);
        let mut coverage = Coverage::none();
        for _ in 0..4 * 26_676 {
            let (step, _) = steps.step();
            coverage.see(&step, &second::step(&step));
        }
        coverage.require_answers(&[0, 5, 7, 8]);
        let of_cut_code = |name: &str| name.starts_with("compare: all but the immediate");
        let of_predicates = |name: &str| name.starts_with("compare: predicate, and");
        coverage.require_of(2, of_predicates);
        coverage.require_of(10, |name| {
            let of_rows = name.starts_with("scalar") || name.starts_with("compare");
            let rare = of_cut_code(name) || of_predicates(name);
            name == "instruction done" || of_rows && !rare
        });
    }

    /// What is recorded of a processor, for which the second program stands in here, differs just
    /// where there is a known difference; with another answer, flag or half it always does.
    #[test]
    fn a_step_is_kept_as_a_recording() {
        let mut steps = WitnessSteps::seeded(2, false);
        let mut counts = [0; 2];
        for _ in 0..20_000 {
            let (before, length) = steps.step();
            let outcome = stand_in(&before);
            let verdict = verdict(&before, &step(&before), &outcome);
            let known = usize::from(verdict != Verdict::Agrees);
            let due = [Report::Same(1), Report::Differs(0)][known];
            let report =
                |outcome: &StepOutcome| replay(&recording(&before, length, outcome).bytes());
            assert_eq!(report(&outcome), due, "{before}");
            counts[known] += 1;
            for spoil in [
                |outcome: &mut StepOutcome| outcome.answer.number = 9 - outcome.answer.number,
                |outcome: &mut StepOutcome| outcome.answer.number = 0,
                |outcome: &mut StepOutcome| outcome.after.machine.control ^= 0x2000,
                |outcome: &mut StepOutcome| outcome.after.machine.vectors.fill(0x55),
            ] {
                let mut wrong = outcome.clone();
                spoil(&mut wrong);
                let is_seen = wrong.answer != outcome.answer
                    || wrong.after.machine.control != outcome.after.machine.control
                    || destination(&wrong) != destination(&outcome);
                assert!(!is_seen || report(&wrong) == Report::Differs(0), "{before}");
            }
        }
        assert!(counts.iter().all(|&count| count > 0), "{counts:?}");
    }
}
