//! The instructions of a case, and whether each can be executed and written down. All of it can be
//! known before: the code is straight, and nothing in it writes a general register.

use case::state::Input;
use case::{answer, hex};
use ridgecrook_tests::machine::{Machine, Step};
use ridgecrook_tests::second::encoding::{decode, Instruction, Second};
use ridgecrook_tests::second::replay::MEMORY_LIMIT;
use ridgecrook_tests::second::step::first_address;
use ridgecrook_tests::witness::runnable;

/// An instruction of a case.
#[derive(Clone, Copy, Debug, PartialEq, Eq)]
pub struct Place {
    pub offset: usize,
    pub length: usize,
    /// Whether it has an operand in memory.
    pub in_memory: bool,
}

/// Why a case cannot be recorded, at an offset of its code.
#[derive(Clone, Debug, PartialEq, Eq)]
pub struct Stop {
    pub offset: usize,
    pub why: String,
}

/// The instructions of a case, or the first that cannot be recorded. The pointer moves with the
/// offset, since a run ends where an answer is not 0.
pub fn places(input: &Input) -> Result<Vec<Place>, Stop> {
    let mut machine = input.state.machine();
    let (mut all, mut offset) = (Vec::new(), 0);
    while offset < input.code.len() {
        let found = place(input, offset, &machine);
        let place = found.map_err(|why| Stop { offset, why })?;
        all.push(place);
        offset += place.length;
        machine.pointer = machine.pointer.wrapping_add(place.length as u64);
    }
    Ok(all)
}

fn place(input: &Input, offset: usize, machine: &Machine) -> Result<Place, String> {
    let code = &input.code[offset..];
    let instruction = decode(code).map_err(|number| undecoded(code, number))?;
    let in_memory = matches!(instruction.second, Second::Memory { .. });
    let fault = match in_memory {
        true => unheld(input).or_else(|| unplaced(code, machine, &instruction)),
        false => None,
    };
    match fault {
        Some(why) => Err(why),
        None => Ok(Place {
            offset,
            length: instruction.length,
            in_memory,
        }),
    }
}

/// Bytes that the rules refuse, of which the first few are shown.
fn undecoded(code: &[u8], number: u32) -> String {
    let (shown, more) = match code.len() {
        0..=6 => (hex(code), ""),
        _ => (hex(&code[..6]), " .."),
    };
    let answer = answer::described(number);
    format!("{shown}{more} is answered {answer}; only what is decoded is executed")
}

/// More memory than an item has room for.
fn unheld(input: &Input) -> Option<String> {
    let size = input.memory.len();
    let more = "it has an operand in memory, of which there are";
    (size > MEMORY_LIMIT).then(|| format!("{more} {size} bytes; an item holds {MEMORY_LIMIT}"))
}

/// How far from 0 an address may lie. The runner has pages that cannot be read for twice as far on
/// either side of the memory; beyond them its own program may have something.
const REACH: u64 = 1 << 32;

/// An address, or a pointer that it is relative to, from which the runner cannot tell memory from
/// what lies around it.
fn unplaced(code: &[u8], machine: &Machine, instruction: &Instruction) -> Option<String> {
    let Second::Memory { address, .. } = instruction.second else {
        return None;
    };
    let first = first_address(machine, &address, instruction.length);
    if (first as i64).unsigned_abs() > REACH {
        return Some(format!(
            "its address, 0x{first:X}, is too far from memory to be tried"
        ));
    }
    let step = Step {
        machine: machine.clone(),
        code: code[..instruction.length].to_vec(),
        memory: Vec::new(),
    };
    let pointer = machine.pointer;
    let far = format!("its address is relative to a pointer, 0x{pointer:X}, too far from 0");
    runnable(&step, false).is_none().then_some(far)
}
