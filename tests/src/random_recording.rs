//! Random recordings (R14.1), of every instruction and with every answer that a step has, and
//! damage to them.

use crate::machine::{Machine, ALL_MASKED, VECTORS_SIZE};
use crate::random::Random;
use crate::random_step::Steps;
use crate::recording::{Recorder, Recording};
use crate::second::replay::{CODE_LIMIT, MEMORY_LIMIT};

/// What recordings are drawn from.
pub struct Recordings {
    pub steps: Steps,
}

impl Recordings {
    pub fn seeded(seed: u64) -> Recordings {
        Recordings {
            steps: Steps::seeded(seed),
        }
    }

    /// A recording of so many items in either version. One in four begins with a step whose operand
    /// was aimed at; of these a few have a state that is refused.
    pub fn recorder(&mut self, items: usize) -> Recorder {
        let (machine, memory, first) = if self.steps.random.once_in(4) {
            let step = self.steps.step();
            (step.machine, step.memory, Some(step.code))
        } else {
            let (machine, memory) = self.start();
            (machine, memory, None)
        };
        // Of a file with another size there is only the whole form.
        let is_whole = machine.vectors.len() == VECTORS_SIZE;
        let version = if is_whole && self.steps.random.once_in(2) {
            2
        } else {
            1
        };
        let mut recorder = Recorder::of(version, machine);
        if !is_whole || recorder.machine.control >= 1 << 16 {
            // The steps are any: none is reached.
            recorder.machine = Machine::blank();
        }
        for number in 0..items {
            let mut code = match (&first, number) {
                (Some(code), 0) => code.clone(),
                _ => self.code(),
            };
            code.truncate(CODE_LIMIT);
            let memory = match number {
                0 => memory.clone(),
                _ => self.memory(&memory),
            };
            recorder.step(&code, &memory);
        }
        recorder
    }

    /// A state with some of its registers, whose pointer stands among the addresses too. One in three
    /// unmasks every exception, so that flags are added without a result.
    fn start(&mut self) -> (Machine, Vec<u8>) {
        let (mut machine, memory) = self.steps.start();
        let random = &mut self.steps.random;
        machine.pointer = random.within(0, 600) as u64;
        if random.once_in(2) {
            machine.keep_registers(random.bits() as u32);
        }
        if random.once_in(3) {
            machine.control &= !ALL_MASKED;
        }
        (machine, memory)
    }

    /// An instruction, one in eight of them spoiled, and perhaps bytes behind it.
    fn code(&mut self) -> Vec<u8> {
        let mut code = self.steps.code();
        let random = &mut self.steps.random;
        if random.once_in(3) {
            let extra = random.within(1, 9) as usize;
            code.extend(random.bytes(extra));
        }
        if random.once_in(8) {
            spoil(random, &mut code);
        }
        code
    }

    /// Some of the memory of the start, from any place on, or as much as there may be.
    fn memory(&mut self, of_start: &[u8]) -> Vec<u8> {
        let random = &mut self.steps.random;
        let from = random.within(0, of_start.len() as i32) as usize;
        let size = match random.within(0, 9) {
            0 => 0,
            1 | 2 => of_start.len(),
            3 if random.once_in(10) => MEMORY_LIMIT,
            _ => random.within(0, 700) as usize,
        };
        let turned = of_start[from..].iter().chain(&of_start[..from]);
        let mut memory: Vec<u8> = turned.copied().take(size).collect();
        if size == MEMORY_LIMIT {
            memory.resize(size, 0x3C);
        }
        memory
    }

    /// The bytes of a recording with one thing wrong, or with one that makes no difference.
    pub fn damaged(&mut self, recording: &Recording) -> Vec<u8> {
        let random = &mut self.steps.random;
        let mut recording = recording.clone();
        let count = recording.items.len() as i32;
        let kind = random.within(0, 11);
        if kind < 6 && count > 0 {
            let number = random.within(0, count - 1) as usize;
            damage_item(random, &mut recording, number);
            return recording.bytes();
        }
        let end = recording.item_at(recording.items.len());
        let mut bytes = recording.bytes();
        match kind {
            // A bit of an item, of a length or a count more often; it may be missing.
            0..=7 => {
                let number = random.within(0, count.max(1) - 1);
                let at = if count > 0 && random.once_in(2) {
                    recording.item_at(number as usize) + random.within(0, 6) as usize
                } else {
                    random.within(0, end as i32 - 1) as usize
                };
                bytes[at] ^= 1 << random.within(0, 7);
            }
            8 => bytes.truncate(random.within(0, end as i32) as usize),
            9 => {
                let extra = random.within(1, 100) as usize;
                bytes.extend(random.bytes(extra));
            }
            10 => bytes[random.within(0, 8) as usize] ^= 1 << random.within(0, 7),
            _ => {
                let at = random.within(0, end as i32 - 1) as usize;
                bytes[at] = random.bits() as u8;
            }
        }
        bytes
    }
}

/// Changes a bit of the first six bytes, or one byte of them, or cuts.
fn spoil(random: &mut Random, code: &mut Vec<u8>) {
    let place = random.within(0, 5) as usize;
    match random.within(0, 3) {
        0 | 1 => code[place] ^= 1 << random.within(0, 7),
        2 => code[place] = random.bits() as u8,
        _ => code.truncate(random.within(0, code.len() as i32) as usize),
    }
}

/// What an error in a replay or in a recorder may confuse: another answer, a control word without
/// its flags, another destination, its bytes in another order, items in another order.
fn damage_item(random: &mut Random, recording: &mut Recording, number: usize) {
    let other = random.within(0, recording.items.len() as i32 - 1) as usize;
    let other_destination = recording.items[other].destination;
    let item = &mut recording.items[number];
    match random.within(0, 10) {
        0 => item.answer = random.one_of(&[0, 1, 2, 3, 4, 5, 6, 7, 8, 9, 10, 255]),
        1 => item.control &= !63,
        2 => item.control ^= 1 << random.within(0, 31),
        3 => item.destination = other_destination,
        4 => item.destination.fill(0),
        5 => item.destination[..8].reverse(),
        6 => item.destination[random.within(0, 63) as usize] ^= 1 << random.within(0, 7),
        7 => drop(recording.items.remove(number)),
        8 => recording.items.swap(number, other),
        9 => {
            let item = item.clone();
            recording.items.insert(other, item);
        }
        _ => item.version = random.bits() as u8,
    }
}
