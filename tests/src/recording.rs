//! Recordings (R14.1), written item by item: of what the second program does, for the tests of the
//! replay, or of steps that something else made. (`recorded` is about something else, a processor's
//! answers that are kept.)

use crate::machine::{Machine, Step, StepOutcome, REGISTER_SIZE};
use crate::second;
use crate::second::replay::{destination, Report, ITEM_VERSION};
use crate::second::saved::form;

/// An item (R14.2) of which every field may have any value. Its length and its two counts are those
/// of what it holds, of which as many bits are kept as they have room for.
#[derive(Clone, Debug, PartialEq, Eq)]
pub struct Item {
    pub version: u8,
    pub answer: u8,
    pub code: Vec<u8>,
    pub memory: Vec<u8>,
    pub control: u32,
    pub destination: [u8; REGISTER_SIZE],
}

impl Item {
    pub fn bytes(&self) -> Vec<u8> {
        let mut following = vec![self.version, self.answer, self.code.len() as u8];
        following.extend(&self.code);
        following.extend((self.memory.len() as u16).to_be_bytes());
        following.extend(&self.memory);
        following.extend(self.control.to_be_bytes());
        following.extend(self.destination);
        let mut bytes = (following.len() as u32).to_be_bytes().to_vec();
        bytes.extend(following);
        bytes
    }

    /// Where each part begins in the item's bytes, and which part it is, in rising order.
    pub fn parts(&self) -> [(usize, Part); 9] {
        let memory_count = 7 + self.code.len();
        let control = memory_count + 2 + self.memory.len();
        [
            (0, Part::Length),
            (4, Part::Version),
            (5, Part::Answer),
            (6, Part::CodeCount),
            (7, Part::Code),
            (memory_count, Part::MemoryCount),
            (memory_count + 2, Part::Memory),
            (control, Part::Control),
            (control + 4, Part::Destination),
        ]
    }

    /// The part that a byte of the item belongs to.
    pub fn part_of(&self, place: usize) -> Part {
        let parts = self.parts();
        let last = parts.iter().rev().find(|(begin, _)| *begin <= place);
        last.expect("the first part begins at 0").1
    }
}

#[derive(Clone, Copy, Debug, PartialEq, Eq, PartialOrd, Ord)]
pub enum Part {
    Length,
    Version,
    Answer,
    CodeCount,
    Code,
    MemoryCount,
    Memory,
    Control,
    Destination,
}

/// A saved form and items. Either may be wrong.
#[derive(Clone)]
pub struct Recording {
    pub form: Vec<u8>,
    pub items: Vec<Item>,
}

impl Recording {
    pub fn bytes(&self) -> Vec<u8> {
        let items = self.items.iter().flat_map(Item::bytes);
        self.form.iter().copied().chain(items).collect()
    }

    /// Where an item begins; of the number of all items, where the last one ends.
    pub fn item_at(&self, number: usize) -> usize {
        let before = self.items[..number].iter().map(|item| item.bytes().len());
        self.form.len() + before.sum::<usize>()
    }
}

/// Writes a recording, step by step.
pub struct Recorder {
    pub recording: Recording,
    /// The state that the last step left, where the next goes on.
    pub machine: Machine,
}

impl Recorder {
    /// A recording without items, that begins with a state saved in that version.
    pub fn of(version: u32, machine: Machine) -> Recorder {
        let form = form(&machine, version);
        let items = Vec::new();
        Recorder {
            recording: Recording { form, items },
            machine,
        }
    }

    /// One step more by the second program, with its own code and memory. Its answer comes back.
    pub fn step(&mut self, code: &[u8], memory: &[u8]) -> u32 {
        let outcome = second::step(&self.next(code, memory));
        self.add(outcome)
    }

    /// The step that is to come, with its own code and memory.
    pub fn next(&self, code: &[u8], memory: &[u8]) -> Step {
        Step {
            machine: self.machine.clone(),
            code: code.to_vec(),
            memory: memory.to_vec(),
        }
    }

    /// One step more, whoever made it. Its answer is handed back.
    pub fn add(&mut self, outcome: StepOutcome) -> u32 {
        let number = outcome.answer.number;
        let destination = destination(&outcome);
        let after = outcome.after;
        self.recording.items.push(Item {
            version: ITEM_VERSION,
            answer: number as u8,
            code: after.code,
            memory: after.memory,
            control: after.machine.control,
            destination,
        });
        self.machine = after.machine;
        number
    }

    /// A recording of one step in version 2, whoever made it.
    pub fn of_step(before: &Step, outcome: StepOutcome) -> Recording {
        let mut recorder = Recorder::of(2, before.machine.clone());
        recorder.add(outcome);
        recorder.recording
    }

    /// The report that is due of what was written so far.
    pub fn report(&self) -> Report {
        Report::Same(self.recording.items.len() as u64)
    }
}

#[cfg(test)]
mod tests {
    use super::*;
    use crate::command_input::{one_and, ADD, ADD_MEMORY};

    /// Two items: what is written is replayed, and its parts are where they are said to be.
    #[test]
    fn what_is_written_is_replayed() {
        let mut recorder = Recorder::of(2, one_and(0x4000));
        assert_eq!(recorder.step(&ADD, &[]), 0);
        recorder.machine.masks[1] = 0;
        assert_eq!(recorder.step(&ADD_MEMORY, &[7; 300]), 0);
        let recording = &recorder.recording;
        let bytes = recording.bytes();
        assert_eq!(second::replay::replay(&bytes), recorder.report());
        assert_eq!(recorder.report().to_string(), "same 2");
        assert_eq!(recording.item_at(1) - recording.item_at(0), 77 + 6);
        assert_eq!(recording.item_at(2), bytes.len());
        let item = &bytes[recording.item_at(1)..];
        assert_eq!(item[..7], [0, 0, 0x01, 0x7B, 1, 0, 6]);
        let begins = recording.items[1].parts().map(|(begin, _)| begin);
        assert_eq!(begins, [0, 4, 5, 6, 7, 13, 15, 315, 319]);
        assert_eq!(item[13..16], [0x01, 0x2C, 7]);
        assert_eq!(item[315..319], [0, 0, 0x1F, 0x80]);
        assert_eq!(recording.items[1].part_of(314), Part::Memory);
        assert_eq!(recording.items[1].part_of(319 + 63), Part::Destination);
    }
}
