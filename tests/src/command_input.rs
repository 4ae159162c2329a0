//! Inputs of the command: from their parts, and at random.

use crate::machine::{Machine, Step, ALL_MASKED, REGISTER_SIZE, VECTORS_SIZE};
use crate::random_step::Steps;
use crate::second;
use crate::second::command::{saved_size, CODE_LIMIT, MEMORY_LIMIT};
use crate::second::saved::{form, FILE_AT, LARGEST_SIZE, SMALLEST_SIZE, WHOLE_SIZE};

/// zmm0 = zmm1 + zmm2.
pub const ADD: [u8; 6] = [0x62, 0xF5, 0x74, 0x48, 0x58, 0xC2];
/// zmm0{k1} = zmm1 + what stands at RAX.
pub const ADD_MEMORY: [u8; 6] = [0x62, 0xF5, 0x74, 0x49, 0x58, 0x00];
/// zmm0 = zmm1 / zmm2.
pub const DIVIDE: [u8; 6] = [0x62, 0xF5, 0x74, 0x48, 0x5E, 0xC2];

/// A machine that has 1 in each lane of zmm1 and so much in each of zmm2.
pub fn one_and(half: u16) -> Machine {
    let mut machine = Machine::blank();
    for lane in 0..32 {
        machine.set_lane(1, lane, 0x3C00);
        machine.set_lane(2, lane, half);
    }
    machine
}

/// Where the code begins in an input whose saved state has version 1: behind that and the code's
/// length.
pub const CODE_AT: usize = WHOLE_SIZE + 2;

/// The most bytes that a good input has (R10.7).
pub const LARGEST_INPUT: usize = LARGEST_SIZE + 2 + CODE_LIMIT + MEMORY_LIMIT;

/// The input of these parts, with the state saved in version 1.
pub fn input(machine: &Machine, code: &[u8], memory: &[u8]) -> Vec<u8> {
    input_in(1, machine, code, memory)
}

/// The input of these parts, with the state saved in a version and the code's own length, of which
/// 16 bits are kept.
pub fn input_in(version: u32, machine: &Machine, code: &[u8], memory: &[u8]) -> Vec<u8> {
    let mut bytes = form(machine, version);
    bytes.extend((code.len() as u16).to_be_bytes());
    bytes.extend(code);
    bytes.extend(memory);
    bytes
}

/// How an input ended, by what the command is to print: the last answer, 0 where the code came to
/// its end, 10 for `bad input`.
pub fn ending(output: &str) -> usize {
    let mut lines = output.lines().rev();
    match (lines.next(), lines.next()) {
        (Some("bad input"), _) => 10,
        (_, Some(step)) => {
            let number = step.split(' ').nth(1);
            number.and_then(|n| n.parse().ok()).expect("a step's line")
        }
        (_, None) => 0,
    }
}

/// Random inputs.
pub struct Inputs {
    steps: Steps,
}

impl Inputs {
    pub fn seeded(seed: u64) -> Inputs {
        Inputs {
            steps: Steps::seeded(seed),
        }
    }

    /// A single step, spoiled here and there, or some steps, which may end in bytes that are no
    /// instruction; one in six is damaged.
    pub fn input(&mut self) -> Vec<u8> {
        let mut bytes = if self.steps.random.once_in(4) {
            let mut step = self.steps.step();
            self.clear_some(&mut step.machine);
            self.in_any_version(&step.machine, &step.code, &step.memory)
        } else {
            let count = self.steps.random.within(0, 12);
            self.sequence(count as usize, 3)
        };
        if self.steps.random.once_in(6) {
            self.damage(&mut bytes);
        }
        bytes
    }

    /// The input of these parts in either version.
    fn in_any_version(&mut self, machine: &Machine, code: &[u8], memory: &[u8]) -> Vec<u8> {
        let is_whole = machine.vectors.len() == VECTORS_SIZE;
        let version = if is_whole && self.steps.random.once_in(2) {
            2
        } else {
            1
        };
        input_in(version, machine, code, memory)
    }

    /// Clears no register, all, or any of them.
    fn clear_some(&mut self, machine: &mut Machine) {
        let random = &mut self.steps.random;
        let kept = match random.within(0, 3) {
            0 | 1 => u32::MAX,
            2 => 0,
            _ => random.bits() as u32,
        };
        machine.keep_registers(kept);
    }

    /// So many instructions, as far as the code's length allows, then perhaps other bytes. Each is
    /// the first of so many tries that is carried out, or the last of them.
    pub fn sequence(&mut self, count: usize, tries: usize) -> Vec<u8> {
        let (start, memory) = self.start();
        let (mut machine, mut code) = (start.clone(), Vec::new());
        for _ in 0..count {
            let (instruction, after) = self.next_instruction(machine, &memory, tries);
            machine = after;
            if code.len() + instruction.len() <= CODE_LIMIT {
                code.extend(instruction);
            }
        }
        if self.steps.random.once_in(4) {
            let extra = self.steps.random.within(1, 20) as usize;
            code.extend(self.steps.random.bytes(extra));
            code.truncate(CODE_LIMIT);
        }
        self.in_any_version(&start, &code, &memory)
    }

    /// Two in three mask every exception, so that long sequences are not rare.
    fn start(&mut self) -> (Machine, Vec<u8>) {
        let (mut machine, mut memory) = self.steps.start();
        self.clear_some(&mut machine);
        if !self.steps.random.once_in(3) {
            machine.control |= ALL_MASKED;
        }
        let kept = match self.steps.random.within(0, 3) {
            0 => 0,
            1 => self.steps.random.within(0, 200) as usize,
            _ => memory.len(),
        };
        memory.truncate(kept);
        (machine, memory)
    }

    /// An instruction and the state that it leaves.
    fn next_instruction(
        &mut self,
        machine: Machine,
        memory: &[u8],
        tries: usize,
    ) -> (Vec<u8>, Machine) {
        let mut step = Step {
            machine,
            code: Vec::new(),
            memory: memory.to_vec(),
        };
        for _ in 0..tries {
            step.code = self.steps.code();
            let outcome = second::step(&step);
            if outcome.answer.number == 0 {
                return (step.code, outcome.after.machine);
            }
        }
        (step.code, step.machine)
    }

    /// Cuts the input, changes a bit of a number that counts or marks, clears what may be a present
    /// register, or makes the memory larger, which may be too large.
    fn damage(&mut self, bytes: &mut Vec<u8>) {
        let random = &mut self.steps.random;
        let saved = saved_size(bytes).expect("an input that is not damaged yet");
        match random.within(0, 4) {
            0 => {
                let kept = random.within(0, bytes.len() as i32);
                bytes.truncate(kept as usize);
            }
            1 | 2 => {
                // Length, version and control word; the word of version 2; the code's length.
                let places = [0..9, FILE_AT..FILE_AT + 4, saved..saved + 2];
                let places: Vec<usize> = places.into_iter().flatten().collect();
                bytes[random.one_of(&places)] ^= 1 << random.within(0, 7);
            }
            3 => {
                let first = bytes[SMALLEST_SIZE..].iter_mut().take(REGISTER_SIZE);
                first.for_each(|byte| *byte = 0);
            }
            _ => {
                let largest = (saved + 2 + MEMORY_LIMIT) as i32;
                let size = random.within(largest - 200, largest + 200);
                bytes.resize(size as usize, 0x3C);
            }
        }
    }
}

#[cfg(test)]
mod tests {
    use super::*;

    #[test]
    fn endings_are_told_apart() {
        for (output, number) in [
            ("bad input\n", 10),
            ("stop 0\n", 0),
            ("0 0 00001f80\nstop 6\n", 0),
            ("0 0 00001f80\n6 8 00001f81\nstop 6\n", 8),
        ] {
            assert_eq!(ending(output), number, "{output}");
        }
    }
}
