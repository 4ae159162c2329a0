//! What the tests of saves, loads and moves share: states of which only some registers are present
//! (R9.8), calls that are done and calls that are refused.

use crate::compare::{failure, log, setting, Comparison};
use crate::library;
use crate::machine::{Machine, REGISTER_SIZE};
use crate::random::Random;
use crate::second;
use crate::second::saved::{form, size, FILE_AT, SMALLEST_SIZE, VERSIONS};
use crate::transfer::{Call, Transfer, TransferOutcome};
use std::collections::BTreeMap;

const SEED: u64 = 20_240_302;

/// Versions that there are not: neighbours, what is equal in 8 bits, the bytes in another order.
pub const NO_VERSIONS: [u32; 8] = [
    0,
    3,
    255,
    256 + 1,
    256 + 2,
    0x0100_0000,
    0x0200_0000,
    u32::MAX,
];

/// Sizes above any that is right. (`tests/c/saved.c` has sizes above 2 to the 32.)
pub const LARGE: [usize; 7] = [2305, 4096, 4514, 65_536, 65_536 + 2048, 67_793, 1 << 20];

/// From 0 to some more than any that is right, and the large ones.
pub fn sizes() -> impl Iterator<Item = usize> {
    (0..=2300).chain(LARGE)
}

/// The generator of a test, with the seed that `RIDGECROOK_SEED` sets.
pub fn random() -> Random {
    Random::seeded(setting("RIDGECROOK_SEED", SEED))
}

/// The number of random states of a test, which `RIDGECROOK_STATES` sets.
pub fn states() -> u64 {
    setting("RIDGECROOK_STATES", 20_000)
}

/// A comparison of the library's calls.
pub fn compared(name: &str) -> Comparison<Transfer> {
    Comparison::of(library::transfer_outcome, name)
}

impl Random {
    /// A state with any set of registers present: none, all, one, all but one, or any.
    pub fn sparse_machine(&mut self) -> Machine {
        let one = 1 << self.within(0, 31);
        let word = match self.within(0, 7) {
            0 => 0,
            1 => u32::MAX,
            2 => one,
            3 => !one,
            _ => self.bits() as u32,
        };
        self.machine_with(word)
    }

    /// A state in which those registers are present whose bits are set in the word. One in four of
    /// them has a single bit that is not 0.
    pub fn machine_with(&mut self, word: u32) -> Machine {
        let mut machine = self.machine();
        for register in machine.vectors.chunks_mut(REGISTER_SIZE) {
            if self.once_in(4) {
                register.fill(0);
                register[self.within(0, 63) as usize] = 1 << self.within(0, 7);
            }
        }
        machine.keep_registers(word);
        machine
    }
}

/// The versions of the forms that a call is tried with. One that reads none is tried once.
pub fn versions_held(call: Call) -> &'static [u32] {
    if call.reads() {
        &VERSIONS
    } else {
        &[1]
    }
}

/// A call that nothing refuses: a save of the state, or a load or a move of its form in the version
/// `held`. Where it writes, any bytes stand, and any bits in a control word.
pub fn done(random: &mut Random, call: Call, held: u32, state: &Machine) -> Transfer {
    let mut transfer = Transfer {
        call,
        machine: Machine::blank(),
        bytes: Vec::new(),
        target: Vec::new(),
    };
    if call.reads() {
        transfer.bytes = form(state, held);
    } else {
        transfer.machine = state.clone();
    }
    match call {
        Call::Save => transfer.bytes = random.bytes(size(state, 1)),
        Call::SaveVersion(version) => transfer.bytes = random.bytes(size(state, version)),
        Call::Move(version) => transfer.target = random.bytes(size(state, version)),
        Call::Load => {
            transfer.machine = random.machine();
            transfer.machine.control = random.bits() as u32;
        }
        Call::SavedSize(_) | Call::MovedSize(_) => {}
    }
    transfer
}

/// The answer to a call that nothing refuses.
pub fn done_number(call: Call, state: &Machine) -> u32 {
    match call {
        Call::SavedSize(version) | Call::MovedSize(version) => size(state, version) as u32,
        _ => 0,
    }
}

/// Writes the length field of a form.
pub fn set_length(bytes: &mut [u8], following: u32) {
    bytes[..4].copy_from_slice(&following.to_be_bytes());
}

/// Any call, as it is done or with one to four places spoiled.
pub fn mixture(random: &mut Random) -> Transfer {
    let call = random.one_of(&Call::ALL);
    let held = random.one_of(&VERSIONS);
    let state = random.sparse_machine();
    let mut transfer = done(random, call, held, &state);
    for _ in 0..random.within(0, 4) {
        spoil(random, &mut transfer);
    }
    transfer
}

/// Another version, another size, a control word, a byte of the head, a cleared register, or the
/// length field that the bytes ask for.
fn spoil(random: &mut Random, transfer: &mut Transfer) {
    let bytes = &mut transfer.bytes;
    match random.within(0, 7) {
        0 => {
            let version = random.one_of(&[NO_VERSIONS.as_slice(), &VERSIONS].concat());
            transfer.call = transfer.call.asking(version);
        }
        1 => resize(random, &mut transfer.machine.vectors),
        2 => resize(random, &mut transfer.target),
        3 => resize(random, bytes),
        4 => {
            transfer.machine.control |= 1 << random.within(16, 31);
            if let Some(byte) = bytes.get_mut(random.one_of(&[5, 6])) {
                *byte |= 1 << random.within(0, 7);
            }
        }
        5 => {
            let places: Vec<usize> = (0..9).chain(FILE_AT..SMALLEST_SIZE).collect();
            if let Some(byte) = bytes.get_mut(random.one_of(&places)) {
                *byte ^= 1 << random.within(0, 7);
            }
        }
        6 => {
            let registers = bytes.get_mut(SMALLEST_SIZE..).unwrap_or(&mut []);
            let number = random.within(0, 31) as usize;
            let register = registers.chunks_mut(REGISTER_SIZE).nth(number);
            register.unwrap_or(&mut []).fill(0);
        }
        _ => {
            if let Some(following) = bytes.len().checked_sub(4) {
                set_length(bytes, following as u32);
            }
        }
    }
}

/// By a byte, by a register, or to any size.
fn resize(random: &mut Random, bytes: &mut Vec<u8>) {
    let size = match random.within(0, 4) {
        0 => bytes.len() + 1,
        1 => bytes.len().saturating_sub(1),
        2 => bytes.len() + REGISTER_SIZE,
        3 => bytes.len().saturating_sub(REGISTER_SIZE),
        _ => random.within(0, 2300) as usize,
    };
    bytes.resize(size, 0xA5);
}

/// Every call with every answer that it has; a size is counted as 11.
const REACHED: [(&str, &[u32]); 6] = [
    ("save", &[0, 1, 2]),
    ("save_version", &[0, 1, 2, 10]),
    ("load", &[0, 1, 2, 10]),
    ("move", &[0, 1, 2, 10]),
    ("saved_size", &[0, 11]),
    ("moved_size", &[0, 11]),
];

/// Holds so many mixtures against the second program. In 10,000 or more, each of those answers
/// comes up at least once in 200, and no other at all.
pub fn compare_mixtures(mut comparison: Comparison<Transfer>, random: &mut Random, cases: u64) {
    let mut counts = BTreeMap::new();
    for _ in 0..cases {
        let transfer = mixture(random);
        let number = comparison.case(&transfer).number.min(11);
        *counts.entry((transfer.call.name(), number)).or_insert(0) += 1;
    }
    comparison.finish(cases);
    log(&format!("mixtures: {counts:?}"));
    if cases >= 10_000 {
        for (name, number) in REACHED
            .iter()
            .flat_map(|(name, all)| all.iter().map(|n| (*name, *n)))
        {
            let count = counts.remove(&(name, number)).unwrap_or(0);
            assert!(count >= cases / 200, "{name} {number}: {count}");
        }
        assert!(counts.is_empty(), "other answers: {counts:?}");
    }
}

/// Both programs answer with that number and leave everything as it was.
pub fn check_unchanged(name: &str, before: &Transfer, number: u32) {
    let unchanged = TransferOutcome {
        number,
        after: before.clone(),
    };
    for outcome in [library::transfer_outcome(before), second::transfer(before)] {
        let agrees = outcome == unchanged;
        assert!(agrees, "{name}: {}", failure(before, &outcome, &unchanged));
    }
}
