//! A step of the machine as the tests hold it: the state and all else that is lent to a call, and
//! what the call leaves of it.

/// The size that the vector file is to have (R1.2); a test may hold one of any size.
pub const VECTORS_SIZE: usize = 2048;
pub const REGISTER_SIZE: usize = 64;

/// The general registers by their numbers (R1.4).
pub const GENERAL: [&str; 16] = [
    "rax", "rcx", "rdx", "rbx", "rsp", "rbp", "rsi", "rdi", "r8", "r9", "r10", "r11", "r12", "r13",
    "r14", "r15",
];

/// Every exception masked, mode 0.
pub const ALL_MASKED: u32 = 0x1F80;

#[derive(Clone, Debug, PartialEq, Eq)]
pub struct Machine {
    pub vectors: Vec<u8>,
    pub masks: [u64; 8],
    pub general: [u64; 16],
    pub control: u32,
    pub pointer: u64,
}

impl Machine {
    /// All zero, but that every exception is masked.
    pub fn blank() -> Machine {
        Machine {
            vectors: vec![0; VECTORS_SIZE],
            masks: [0; 8],
            general: [0; 16],
            control: ALL_MASKED,
            pointer: 0,
        }
    }

    /// Clears each register whose bit is not set in the word.
    pub fn keep_registers(&mut self, word: u32) {
        let registers = self.vectors.chunks_mut(REGISTER_SIZE).take(32);
        for (number, register) in registers.enumerate() {
            if word >> number & 1 == 0 {
                register.fill(0);
            }
        }
    }

    pub fn lane(&self, register: usize, lane: usize) -> u16 {
        let at = REGISTER_SIZE * register + 2 * lane;
        u16::from_le_bytes([self.vectors[at], self.vectors[at + 1]])
    }

    pub fn set_lane(&mut self, register: usize, lane: usize, half: u16) {
        let at = REGISTER_SIZE * register + 2 * lane;
        self.vectors[at..at + 2].copy_from_slice(&half.to_le_bytes());
    }
}

/// A call: the machine and the two byte strings that are lent with it.
#[derive(Clone, Debug, PartialEq, Eq)]
pub struct Step {
    pub machine: Machine,
    pub code: Vec<u8>,
    pub memory: Vec<u8>,
}

impl Step {
    /// A blank machine without memory.
    pub fn of(code: Vec<u8>) -> Step {
        Step {
            machine: Machine::blank(),
            code,
            memory: Vec::new(),
        }
    }
}

/// What a step answers, laid out as `ridgecrook_answer` of the C interface.
#[repr(C)]
#[derive(Clone, Copy, Debug, PartialEq, Eq)]
pub struct Answer {
    pub number: u32,
    pub length: u32,
}

/// The answer, and all that was lent as it stands after the call, so that a byte that was only to
/// be read is compared too.
#[derive(Clone, Debug, PartialEq, Eq)]
pub struct StepOutcome {
    pub answer: Answer,
    pub after: Step,
}
