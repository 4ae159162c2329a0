//! The replay of a recording (R14.1 to R14.7) with the same checks and reports as the library's,
//! unproved and written for speed: an item's fields are taken from where they stand, nothing is
//! copied, and an instruction is not decoded a second time for its destination.

use crate::plain_saved;
use crate::plain_step::{self, Destination};
use ridgecrook_tests::machine::{Machine, REGISTER_SIZE};
use ridgecrook_tests::second::replay::Report;

const LENGTH_FIELD: usize = 4;

/// What an item's length field counts beside the code and the memory: version, answer, the counts
/// of the two, control word and destination.
const FIXED: usize = 1 + 1 + 1 + 2 + 4 + REGISTER_SIZE;

const MOST_CODE: usize = 15;
const MOST_MEMORY: usize = 4096;

pub fn replay(recording: &[u8]) -> Report {
    let mut machine = Machine::blank();
    let Some(mut rest) = load(recording, &mut machine) else {
        return Report::BadState;
    };
    let mut number = 0;
    while !rest.is_empty() {
        let Some((item, behind)) = Item::of(rest) else {
            return Report::BadItem(number);
        };
        if !item.agrees(&mut machine) {
            return Report::Differs(number);
        }
        rest = behind;
        number += 1;
    }
    Report::Same(number)
}

/// The items behind the saved form, which ends where its length field says.
fn load<'a>(recording: &'a [u8], machine: &mut Machine) -> Option<&'a [u8]> {
    let length = u32::from_be_bytes(*recording.first_chunk()?) as usize;
    let (saved, items) = recording.split_at_checked(LENGTH_FIELD + length)?;
    (plain_saved::load(saved, machine) == 0).then_some(items)
}

struct Item<'a> {
    answer: u8,
    code: &'a [u8],
    memory: &'a [u8],
    control: u32,
    destination: &'a [u8; REGISTER_SIZE],
}

impl Item<'_> {
    /// A well-formed item, and what stands behind it.
    #[inline]
    fn of(bytes: &[u8]) -> Option<(Item<'_>, &[u8])> {
        let (length, rest) = bytes.split_first_chunk()?;
        let (&[version, answer, code], rest) = rest.split_first_chunk()?;
        let (code, rest) = rest.split_at_checked(code.into())?;
        let (memory, rest) = rest.split_first_chunk()?;
        let (memory, rest) = rest.split_at_checked(u16::from_be_bytes(*memory).into())?;
        let (control, rest) = rest.split_first_chunk()?;
        let (destination, rest) = rest.split_first_chunk()?;
        let length = u32::from_be_bytes(*length) as usize;
        let is_counted = length == FIXED + code.len() + memory.len();
        let is_within = code.len() <= MOST_CODE && memory.len() <= MOST_MEMORY;
        let item = Item {
            answer,
            code,
            memory,
            control: u32::from_be_bytes(*control),
            destination,
        };
        (version == 1 && is_counted && is_within).then_some((item, rest))
    }

    /// Makes the step, and says whether it came out as recorded.
    #[inline]
    fn agrees(&self, machine: &mut Machine) -> bool {
        let answer = plain_step::step(machine, self.code, self.memory).number;
        answer == u32::from(self.answer)
            && machine.control == self.control
            && match answer {
                0 | 7 | 8 => self.has_destination(machine),
                _ => *self.destination == [0; REGISTER_SIZE],
            }
    }

    #[inline]
    fn has_destination(&self, machine: &Machine) -> bool {
        match plain_step::destination(self.code) {
            Destination::Vector(number) => {
                let register = &machine.vectors[REGISTER_SIZE * number..][..REGISTER_SIZE];
                register == self.destination
            }
            Destination::Mask(number) => {
                let (mask, zeros) = self.destination.split_at(8);
                mask == machine.masks[number].to_be_bytes() && *zeros == [0; REGISTER_SIZE - 8]
            }
        }
    }
}
