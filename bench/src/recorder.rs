//! Recordings (R14.1, R14.2) as a recorder makes them: the state that a run begins with, then an
//! item for each step that is made. Which register a step writes is told by the second program, so
//! that the plain replay, which finds it in its own way, is held against another.

use ridgecrook_tests::machine::{Answer, Machine, REGISTER_SIZE};
use ridgecrook_tests::second::encoding::{decode, Destination};
use ridgecrook_tests::second::saved::form;

/// What an item's length field counts beside code and memory.
const FIXED: usize = 73;

/// One implementation of a step.
pub type Step = fn(&mut Machine, &[u8], &[u8]) -> Answer;

pub struct Recorder {
    step: Step,
    pub machine: Machine,
    pub recording: Vec<u8>,
}

impl Recorder {
    /// Begins a recording in the place of whatever a buffer holds: one of a million items is large,
    /// and its buffer is used again.
    pub fn of(step: Step, machine: Machine, version: u32, buffer: Vec<u8>) -> Recorder {
        let mut recording = buffer;
        recording.clear();
        recording.extend(form(&machine, version));
        Recorder {
            step,
            machine,
            recording,
        }
    }

    /// Makes a step, writes its item down, and hands back its answer's number.
    pub fn record(&mut self, code: &[u8], memory: &[u8]) -> u32 {
        let number = (self.step)(&mut self.machine, code, memory).number;
        let destination = self.destination(number, code);
        let length = FIXED + code.len() + memory.len();
        let recording = &mut self.recording;
        recording.extend((length as u32).to_be_bytes());
        recording.extend([1, number as u8, code.len() as u8]);
        recording.extend(code);
        recording.extend((memory.len() as u16).to_be_bytes());
        recording.extend(memory);
        recording.extend(self.machine.control.to_be_bytes());
        recording.extend(destination);
        number
    }

    /// As it stands after the step, and zeros after an answer that names none.
    fn destination(&self, number: u32, code: &[u8]) -> [u8; REGISTER_SIZE] {
        let mut bytes = [0; REGISTER_SIZE];
        if ![0, 7, 8].contains(&number) {
            return bytes;
        }
        match decode(code).map(|instruction| instruction.destination) {
            Ok(Destination::Vector(register)) => {
                let from = &self.machine.vectors[REGISTER_SIZE * register..];
                bytes.copy_from_slice(&from[..REGISTER_SIZE]);
            }
            Ok(Destination::Mask(mask)) => {
                bytes[..8].copy_from_slice(&self.machine.masks[mask].to_be_bytes());
            }
            Err(refusal) => panic!("{code:02X?}: answer {number}, but {refusal} when decoded"),
        }
        bytes
    }
}
