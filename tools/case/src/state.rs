//! A state, and what the command reads (docs/RULES.md, R10.1).

use crate::saved::{self, Front};
use ridgecrook_tests::machine::{Machine, ALL_MASKED};

pub use crate::saved::Version;
pub use ridgecrook_tests::machine::GENERAL;
pub use ridgecrook_tests::second::command::{CODE_LIMIT, MEMORY_LIMIT};

#[derive(Clone, Debug, PartialEq, Eq)]
pub struct State {
    pub control: u32,
    pub pointer: u64,
    pub general: [u64; 16],
    pub masks: [u64; 8],
    pub vectors: [[u16; 32]; 32],
}

impl State {
    /// The same state, as it is lent to the library.
    pub fn machine(&self) -> Machine {
        let halves = self.vectors.iter().flatten();
        Machine {
            vectors: halves.flat_map(|half| half.to_le_bytes()).collect(),
            masks: self.masks,
            general: self.general,
            control: self.control,
            pointer: self.pointer,
        }
    }
}

/// Whether a vector register is all zero; one of negative zeros is not (R9.8).
pub fn is_zero(lanes: &[u16; 32]) -> bool {
    lanes.iter().all(|&half| half == 0)
}

/// What the command reads.
#[derive(Clone, Debug, PartialEq, Eq)]
pub struct Input {
    pub version: Version,
    pub state: State,
    pub code: Vec<u8>,
    pub memory: Vec<u8>,
}

impl Input {
    /// Version 1, all zero but that every exception is masked, no code, no memory.
    pub fn blank() -> Input {
        Input {
            version: Version::One,
            state: State {
                control: ALL_MASKED,
                pointer: 0,
                general: [0; 16],
                masks: [0; 8],
                vectors: [[0; 32]; 32],
            },
            code: Vec::new(),
            memory: Vec::new(),
        }
    }

    pub fn bytes(&self) -> Vec<u8> {
        let mut bytes = saved::write(&self.state, self.version);
        let length = u16::try_from(self.code.len()).expect("code is held to its limit");
        bytes.extend_from_slice(&length.to_be_bytes());
        bytes.extend_from_slice(&self.code);
        bytes.extend_from_slice(&self.memory);
        bytes
    }
}

/// A saved state alone, or a whole input of the command.
pub fn read(bytes: &[u8]) -> Result<Input, String> {
    let Front {
        version,
        state,
        rest,
    } = saved::read(bytes)?;
    let (mut code, mut memory) = (&[][..], &[][..]);
    if !rest.is_empty() {
        let (length, rest) = rest.split_first_chunk().ok_or("its code length is cut")?;
        let length = usize::from(u16::from_be_bytes(*length));
        if length > CODE_LIMIT {
            return Err(format!(
                "its code length is {length}, more than {CODE_LIMIT}"
            ));
        }
        let held = rest.len();
        let parts = rest.split_at_checked(length);
        (code, memory) = parts.ok_or(format!(
            "its code length is {length}, but {held} bytes follow"
        ))?;
    }
    if memory.len() > MEMORY_LIMIT {
        let held = memory.len();
        return Err(format!(
            "it has {held} bytes of memory, more than {MEMORY_LIMIT}"
        ));
    }
    Ok(Input {
        version,
        state,
        code: code.to_vec(),
        memory: memory.to_vec(),
    })
}
