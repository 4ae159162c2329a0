//! The saved form in its two versions (R9.1 to R9.12).

use crate::machine::{Machine, REGISTER_SIZE, VECTORS_SIZE};
use crate::transfer::{Call, Transfer, TransferOutcome};

/// R9.1: the versions that there are.
pub const VERSIONS: [u32; 2] = [1, 2];

/// R9.1: where the vector file begins, in version 2 with its word.
pub const FILE_AT: usize = 209;

/// R9.9: the size in version 1, and in version 2 without a register and with all of them.
pub const WHOLE_SIZE: usize = 2257;
pub const SMALLEST_SIZE: usize = 213;
pub const LARGEST_SIZE: usize = 2261;

/// What the rules answer to a call and leave of it: refused, nothing changes (R9.6).
pub fn transfer(before: &Transfer) -> TransferOutcome {
    let mut after = before.clone();
    let machine = &before.machine;
    let (bytes, target) = (&before.bytes, &before.target);
    let number = match before.call {
        Call::Save => answer(save(1, machine, bytes.len()), &mut after.bytes),
        Call::SaveVersion(version) => answer(save(version, machine, bytes.len()), &mut after.bytes),
        Call::Load => answer(load(bytes, machine.vectors.len()), &mut after.machine),
        Call::Move(version) => answer(moved(version, bytes, target.len()), &mut after.target),
        Call::SavedSize(version) => saved_size(version, machine),
        Call::MovedSize(version) => moved_size(version, bytes),
    };
    TransferOutcome { number, after }
}

/// The number of the refusal, or 0 and what is written.
fn answer<T>(result: Result<T, u32>, place: &mut T) -> u32 {
    match result {
        Ok(written) => {
            *place = written;
            0
        }
        Err(number) => number,
    }
}

/// R9.4: the form to be written, or the number of the refusal.
fn save(version: u32, machine: &Machine, target_size: usize) -> Result<Vec<u8>, u32> {
    if !VERSIONS.contains(&version) {
        return Err(10);
    }
    if machine.vectors.len() != VECTORS_SIZE {
        return Err(1);
    }
    if target_size != size(machine, version) {
        return Err(1);
    }
    if machine.control >= 1 << 16 {
        return Err(2);
    }
    Ok(form(machine, version))
}

/// R9.5: the state that the bytes hold, or the number of the refusal.
pub fn load(saved: &[u8], vectors_size: usize) -> Result<Machine, u32> {
    if vectors_size != VECTORS_SIZE {
        return Err(1);
    }
    held(saved)
}

/// R9.10: the form to be written, or the number of the refusal.
fn moved(version: u32, source: &[u8], target_size: usize) -> Result<Vec<u8>, u32> {
    if !VERSIONS.contains(&version) {
        return Err(10);
    }
    let machine = held(source)?;
    if target_size != size(&machine, version) {
        return Err(1);
    }
    Ok(form(&machine, version))
}

/// R9.12: the size that a save needs.
fn saved_size(version: u32, machine: &Machine) -> u32 {
    if !VERSIONS.contains(&version) || machine.vectors.len() != VECTORS_SIZE {
        return 0;
    }
    size(machine, version) as u32
}

/// R9.12: the size that a move needs.
fn moved_size(version: u32, source: &[u8]) -> u32 {
    match held(source) {
        Ok(machine) => saved_size(version, &machine),
        Err(_) => 0,
    }
}

/// R9.9: the size of a state's form.
pub fn size(machine: &Machine, version: u32) -> usize {
    match version {
        1 => WHOLE_SIZE,
        _ => SMALLEST_SIZE + REGISTER_SIZE * presence(machine).count_ones() as usize,
    }
}

/// R9.8: a bit for each register, 1 where not all its bytes are 0.
fn presence(machine: &Machine) -> u32 {
    let mut word = 0;
    for (number, register) in machine.vectors.chunks(REGISTER_SIZE).enumerate() {
        if register.iter().any(|&byte| byte != 0) {
            word |= 1 << number;
        }
    }
    word
}

/// R9.1, R9.2: the bytes of a state, field by field. Nothing is checked, so a form that is refused
/// can be made too.
pub fn form(machine: &Machine, version: u32) -> Vec<u8> {
    let mut following = vec![version as u8];
    following.extend(machine.control.to_be_bytes());
    following.extend(machine.pointer.to_be_bytes());
    for register in machine.general {
        following.extend(register.to_be_bytes());
    }
    for mask in machine.masks {
        following.extend(mask.to_be_bytes());
    }
    match version {
        1 => following.extend(&machine.vectors),
        _ => following.extend(packed(machine)),
    }
    let mut bytes = (following.len() as u32).to_be_bytes().to_vec();
    bytes.extend(following);
    bytes
}

/// R9.8: the vector file packed.
fn packed(machine: &Machine) -> Vec<u8> {
    let word = presence(machine);
    let mut bytes = word.to_be_bytes().to_vec();
    for (number, register) in machine.vectors.chunks(REGISTER_SIZE).enumerate() {
        if word >> number & 1 == 1 {
            bytes.extend(register);
        }
    }
    bytes
}

/// R9.5: the state in a source, of either version, or the number of the refusal.
fn held(source: &[u8]) -> Result<Machine, u32> {
    let machine = state_in(source).ok_or(10_u32)?;
    if machine.control >= 1 << 16 {
        return Err(2);
    }
    Ok(machine)
}

/// R9.3: the state in bytes that are a saved form, whatever its control word.
fn state_in(source: &[u8]) -> Option<Machine> {
    let mut rest = source;
    let following = take(&mut rest, 4)?;
    if following != rest.len() as u64 {
        return None;
    }
    let version = take(&mut rest, 1)?;
    let control = take(&mut rest, 4)? as u32;
    let pointer = take(&mut rest, 8)?;
    let mut general = [0; 16];
    for register in &mut general {
        *register = take(&mut rest, 8)?;
    }
    let mut masks = [0; 8];
    for mask in &mut masks {
        *mask = take(&mut rest, 8)?;
    }
    let vectors = match version {
        1 if rest.len() == VECTORS_SIZE => rest.to_vec(),
        2 => unpacked(rest)?,
        _ => return None,
    };
    Some(Machine {
        vectors,
        masks,
        general,
        control,
        pointer,
    })
}

/// R9.8: the vector file from its packed form; nothing where registers are missing or left over, or
/// one that is marked is all zero (R9.5).
fn unpacked(file: &[u8]) -> Option<Vec<u8>> {
    let mut rest = file;
    let word = take(&mut rest, 4)?;
    let mut vectors = Vec::new();
    for number in 0..32 {
        if word >> number & 1 == 0 {
            vectors.extend([0; REGISTER_SIZE]);
            continue;
        }
        let (register, left) = rest.split_at_checked(REGISTER_SIZE)?;
        if register.iter().all(|&byte| byte == 0) {
            return None;
        }
        vectors.extend(register);
        rest = left;
    }
    rest.is_empty().then_some(vectors)
}

/// R9.2: takes the next bytes away as a number, the highest first; nothing where they are too few.
pub fn take(rest: &mut &[u8], count: usize) -> Option<u64> {
    let (taken, left) = rest.split_at_checked(count)?;
    *rest = left;
    let number = taken
        .iter()
        .fold(0, |number, &byte| number << 8 | u64::from(byte));
    Some(number)
}
