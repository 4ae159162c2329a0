//! The saved form of a state (docs/RULES.md, section 9), written and read in both versions.

use crate::state::{is_zero, State};
use ridgecrook_tests::machine::REGISTER_SIZE;

/// R9.1: the length field, the version, the control word, the pointer, general registers and masks.
const HEAD: usize = LENGTH_FIELD + 1 + 4 + 8 + 8 * 16 + 8 * 8;
const LENGTH_FIELD: usize = 4;

/// R9.8: the word that says which registers are present.
const WORD: usize = 4;

#[derive(Clone, Copy, Debug, PartialEq, Eq)]
pub enum Version {
    /// Every vector register stands in it.
    One = 1,
    /// Those that are all zero are left out.
    Two,
}

impl Version {
    pub fn of(number: u64) -> Option<Version> {
        let all = [Version::One, Version::Two];
        all.into_iter().find(|&known| known as u64 == number)
    }
}

/// A state behind whose bytes others may stand (R9.13).
pub struct Front<'a> {
    pub version: Version,
    pub state: State,
    pub rest: &'a [u8],
}

/// What a saved form has of the vector file: bit i of `present` is register i.
#[derive(Clone, Copy)]
struct Layout {
    version: Version,
    present: u32,
}

impl Layout {
    const WHOLE: Layout = Layout {
        version: Version::One,
        present: u32::MAX,
    };

    const fn packed(present: u32) -> Layout {
        Layout {
            version: Version::Two,
            present,
        }
    }

    /// Where the registers begin.
    const fn registers_at(self) -> usize {
        match self.version {
            Version::One => HEAD,
            Version::Two => HEAD + WORD,
        }
    }

    /// R9.9.
    const fn size(self) -> usize {
        self.registers_at() + REGISTER_SIZE * self.present.count_ones() as usize
    }

    /// What the length field counts.
    const fn length(self) -> usize {
        self.size() - LENGTH_FIELD
    }

    fn has(self, register: usize) -> bool {
        self.present >> register & 1 == 1
    }

    /// R9.5: a register that is marked as present and is all zero.
    fn empty(self, state: &State) -> Option<usize> {
        let is_empty = |&register: &usize| self.has(register) && is_zero(&state.vectors[register]);
        match self.version {
            Version::One => None,
            Version::Two => (0..32).find(is_empty),
        }
    }

    fn of_state(state: &State, version: Version) -> Layout {
        let bit = |register: usize| u32::from(!is_zero(&state.vectors[register])) << register;
        match version {
            Version::One => Layout::WHOLE,
            Version::Two => Layout::packed((0..32).map(bit).sum()),
        }
    }

    /// Of the saved form at the front of the bytes, which are enough for it; or why there is none.
    fn at_front(bytes: &[u8]) -> Result<Layout, String> {
        let (held, smallest) = (bytes.len(), Layout::packed(0).size());
        let cut = || format!("it has {held} bytes, and the smallest saved state has {smallest}");
        let version = *bytes.get(LENGTH_FIELD).ok_or_else(cut)?;
        let layout = match Version::of(version.into()) {
            None => return Err(format!("its version is {version}, neither 1 nor 2")),
            Some(Version::One) => Layout::WHOLE,
            Some(Version::Two) => {
                let word = bytes.get(HEAD..).and_then(|rest| rest.first_chunk());
                Layout::packed(u32::from_be_bytes(*word.ok_or_else(cut)?))
            }
        };
        let (name, size) = (layout.name(), layout.size());
        match held < size {
            true => Err(format!(
                "it has {held} bytes, and a saved state of {name} has {size}"
            )),
            false => Ok(layout),
        }
    }

    fn name(self) -> String {
        match (self.version, self.present.count_ones()) {
            (Version::One, _) => "version 1".to_string(),
            (Version::Two, 1) => "version 2 with 1 register present".to_string(),
            (Version::Two, count) => format!("version 2 with {count} registers present"),
        }
    }
}

pub fn write(state: &State, version: Version) -> Vec<u8> {
    let layout = Layout::of_state(state, version);
    let length = u32::try_from(layout.length()).expect("R9.9: it fits its four bytes");
    let mut bytes = length.to_be_bytes().to_vec();
    bytes.push(version as u8);
    bytes.extend(state.control.to_be_bytes());
    bytes.extend(state.pointer.to_be_bytes());
    let registers = state.general.iter().chain(&state.masks);
    bytes.extend(registers.flat_map(|register| register.to_be_bytes()));
    if version == Version::Two {
        bytes.extend(layout.present.to_be_bytes());
    }
    for (register, lanes) in state.vectors.iter().enumerate() {
        if layout.has(register) {
            bytes.extend(lanes.iter().flat_map(|half| half.to_le_bytes()));
        }
    }
    bytes
}

/// The saved form at the front of the bytes, or what is wrong with it: the faults of R9.5, in its
/// order.
pub fn read(bytes: &[u8]) -> Result<Front<'_>, String> {
    let layout = Layout::at_front(bytes)?;
    let length = take(&mut &bytes[..], LENGTH_FIELD);
    if length != layout.length() as u64 {
        let (due, name) = (layout.length(), layout.name());
        return Err(format!(
            "its length field is {length}, not {due} as in {name}"
        ));
    }
    let (saved, rest) = bytes.split_at(layout.size());
    let state = parts(saved, layout);
    if let Some(register) = layout.empty(&state) {
        return Err(format!(
            "its register zmm{register} is marked as present and is all zero"
        ));
    }
    if state.control > 0xFFFF {
        let control = format!("0x{:08X}", state.control);
        return Err(format!("its control word {control} has a bit above bit 15"));
    }
    Ok(Front {
        version: layout.version,
        state,
        rest,
    })
}

/// R9.3: what stands in a saved form of the right size.
fn parts(saved: &[u8], layout: Layout) -> State {
    let mut rest = &saved[LENGTH_FIELD + 1..];
    let control = take(&mut rest, 4) as u32;
    let pointer = take(&mut rest, 8);
    let general = std::array::from_fn(|_| take(&mut rest, 8));
    let masks = std::array::from_fn(|_| take(&mut rest, 8));
    let pairs = saved[layout.registers_at()..].chunks_exact(2);
    let mut lanes = pairs.map(|pair| u16::from_le_bytes([pair[0], pair[1]]));
    let mut lane = |register| match layout.has(register) {
        true => lanes.next().expect("64 bytes for each register present"),
        false => 0,
    };
    State {
        control,
        pointer,
        general,
        masks,
        vectors: std::array::from_fn(|register| std::array::from_fn(|_| lane(register))),
    }
}

/// R9.2: takes a number away from the front, its highest byte first.
fn take(rest: &mut &[u8], size: usize) -> u64 {
    let (taken, left) = rest.split_at(size);
    *rest = left;
    let bytes = taken.iter();
    bytes.fold(0, |sum, &byte| sum << 8 | u64::from(byte))
}
