//! Saved forms (R9.1) written, read and moved with the same checks and answers as the library's,
//! unproved and written for speed: registers are copied whole, and one is all zero where the eight
//! numbers in it are. A load clears the vector file first: a branch for each register took longer.

use ridgecrook_tests::machine::{Machine, REGISTER_SIZE, VECTORS_SIZE};

/// What stands before the vector file: the length field, the version, the control word, the
/// pointer, general registers and masks.
const HEAD: usize = LENGTH_FIELD + 1 + 4 + 8 + 8 * 16 + 8 * 8;
const LENGTH_FIELD: usize = 4;

/// The bytes of the word that says which registers are present.
const WORD: usize = 4;

type Head = [u8; HEAD];
type File = [u8; VECTORS_SIZE];
type Register = [u8; REGISTER_SIZE];

/// The vector file in a saved form.
#[derive(Clone, Copy)]
enum Form {
    Whole,
    /// Those registers whose bits are set.
    Packed(u32),
}

impl Form {
    #[inline]
    fn of(version: u32, present: impl FnOnce() -> u32) -> Form {
        match version {
            1 => Form::Whole,
            _ => Form::Packed(present()),
        }
    }

    #[inline]
    fn size(self) -> usize {
        match self {
            Form::Whole => HEAD + VECTORS_SIZE,
            Form::Packed(word) => HEAD + WORD + REGISTER_SIZE * word.count_ones() as usize,
        }
    }

    #[inline]
    fn version(self) -> u8 {
        match self {
            Form::Whole => 1,
            Form::Packed(_) => 2,
        }
    }

    /// The first two fields.
    #[inline]
    fn start(self, head: &mut Head) {
        let length = (self.size() - LENGTH_FIELD) as u32;
        head[..LENGTH_FIELD].copy_from_slice(&length.to_be_bytes());
        head[LENGTH_FIELD] = self.version();
    }

    /// From the vector file to a place of the right size.
    #[inline]
    fn put(self, vectors: &File, place: &mut [u8]) {
        let Form::Packed(present) = self else {
            return place.copy_from_slice(vectors);
        };
        let (word, place) = place.split_at_mut(WORD);
        word.copy_from_slice(&present.to_be_bytes());
        let (registers, mut left) = (registers(vectors), present);
        for register in place.as_chunks_mut().0 {
            *register = registers[left.trailing_zeros() as usize % registers.len()];
            left &= left.wrapping_sub(1);
        }
    }

    /// The other way.
    #[inline]
    fn take(self, place: &[u8], vectors: &mut File) {
        let Form::Packed(present) = self else {
            return vectors.copy_from_slice(place);
        };
        vectors.fill(0);
        let (registers, mut left) = (vectors.as_chunks_mut::<REGISTER_SIZE>().0, present);
        for register in place[WORD..].as_chunks().0 {
            registers[left.trailing_zeros() as usize % registers.len()] = *register;
            left &= left.wrapping_sub(1);
        }
    }
}

#[inline]
fn registers(vectors: &File) -> &[Register] {
    vectors.as_chunks().0
}

#[inline]
fn is_zero(register: &Register) -> bool {
    let numbers = register.as_chunks().0.iter();
    numbers.fold(0, |all, &number| all | u64::from_ne_bytes(number)) == 0
}

#[inline]
fn present(vectors: &File) -> u32 {
    let bits = registers(vectors).iter().enumerate();
    bits.fold(0, |word, (i, register)| {
        word | u32::from(!is_zero(register)) << i
    })
}

/// The parts of a saved form that a load takes.
struct Source<'a> {
    form: Form,
    head: &'a Head,
    file: &'a [u8],
}

impl Source<'_> {
    #[inline]
    fn of(bytes: &[u8]) -> Result<Source<'_>, u32> {
        let (head, file) = bytes.split_first_chunk::<HEAD>().ok_or(10_u32)?;
        let form = match head[LENGTH_FIELD] {
            1 => Form::Whole,
            2 => Form::Packed(u32::from_be_bytes(*file.first_chunk().ok_or(10_u32)?)),
            _ => return Err(10),
        };
        let length = number(head, 0) as usize;
        if bytes.len() != form.size() || length != form.size() - LENGTH_FIELD {
            return Err(10);
        }
        if form.version() == 2 && file[WORD..].as_chunks().0.iter().any(is_zero) {
            return Err(10);
        }
        if number(head, 5) >> 16 != 0 {
            return Err(2);
        }
        Ok(Source { form, head, file })
    }

    /// What a move to a version makes of it.
    #[inline]
    fn moved(&self, version: u32) -> Form {
        Form::of(version, || match self.form {
            Form::Whole => present(self.file.try_into().expect("a whole vector file")),
            Form::Packed(word) => word,
        })
    }
}

/// Four bytes of a head.
#[inline]
fn number(head: &Head, at: usize) -> u32 {
    u32::from_be_bytes([head[at], head[at + 1], head[at + 2], head[at + 3]])
}

#[inline]
fn check_version(version: u32) -> Result<(), u32> {
    match version {
        1 | 2 => Ok(()),
        _ => Err(10),
    }
}

pub fn saved_size(version: u32, vectors: &[u8]) -> usize {
    match (check_version(version), vectors.try_into()) {
        (Ok(()), Ok(vectors)) => Form::of(version, || present(vectors)).size(),
        _ => 0,
    }
}

pub fn moved_size(version: u32, source: &[u8]) -> usize {
    match (check_version(version), Source::of(source)) {
        (Ok(()), Ok(source)) => source.moved(version).size(),
        _ => 0,
    }
}

#[inline]
fn answer(result: Result<(), u32>) -> u32 {
    result.err().unwrap_or(0)
}

pub fn save(version: u32, machine: &Machine, target: &mut [u8]) -> u32 {
    answer(try_save(version, machine, target))
}

#[inline]
fn try_save(version: u32, machine: &Machine, target: &mut [u8]) -> Result<(), u32> {
    check_version(version)?;
    let vectors = machine.vectors.as_slice().try_into().map_err(|_| 1_u32)?;
    let form = Form::of(version, || present(vectors));
    if target.len() != form.size() {
        return Err(1);
    }
    if machine.control >> 16 != 0 {
        return Err(2);
    }
    let (head, file) = target.split_first_chunk_mut().ok_or(1_u32)?;
    form.start(head);
    put_numbers(machine, head);
    form.put(vectors, file);
    Ok(())
}

#[inline]
fn put_numbers(machine: &Machine, head: &mut Head) {
    head[5..9].copy_from_slice(&machine.control.to_be_bytes());
    head[9..17].copy_from_slice(&machine.pointer.to_be_bytes());
    let (general, masks) = head[17..].split_at_mut(8 * machine.general.len());
    for (place, register) in general.as_chunks_mut().0.iter_mut().zip(machine.general) {
        *place = register.to_be_bytes();
    }
    for (place, mask) in masks.as_chunks_mut().0.iter_mut().zip(machine.masks) {
        *place = mask.to_be_bytes();
    }
}

pub fn load(saved: &[u8], machine: &mut Machine) -> u32 {
    answer(try_load(saved, machine))
}

#[inline]
fn try_load(saved: &[u8], machine: &mut Machine) -> Result<(), u32> {
    let vectors = machine.vectors.as_mut_slice();
    let vectors = vectors.try_into().map_err(|_| 1_u32)?;
    let source = Source::of(saved)?;
    source.form.take(source.file, vectors);
    take_numbers(source.head, machine);
    Ok(())
}

#[inline]
fn take_numbers(head: &Head, machine: &mut Machine) {
    machine.control = number(head, 5);
    let numbers = head[9..].as_chunks().0;
    machine.pointer = u64::from_be_bytes(numbers[0]);
    for (register, &bytes) in machine.general.iter_mut().zip(&numbers[1..17]) {
        *register = u64::from_be_bytes(bytes);
    }
    for (mask, &bytes) in machine.masks.iter_mut().zip(&numbers[17..]) {
        *mask = u64::from_be_bytes(bytes);
    }
}

pub fn move_saved(version: u32, source: &[u8], target: &mut [u8]) -> u32 {
    answer(try_move(version, source, target))
}

#[inline]
fn try_move(version: u32, source: &[u8], target: &mut [u8]) -> Result<(), u32> {
    check_version(version)?;
    let parts = Source::of(source)?;
    let form = parts.moved(version);
    if target.len() != form.size() {
        return Err(1);
    }
    if form.version() == parts.form.version() {
        target.copy_from_slice(source);
        return Ok(());
    }
    let (head, file) = target.split_first_chunk_mut().ok_or(1_u32)?;
    *head = *parts.head;
    form.start(head);
    match form {
        Form::Whole => parts
            .form
            .take(parts.file, file.try_into().expect("a whole file")),
        Form::Packed(_) => form.put(parts.file.try_into().expect("a whole file"), file),
    }
    Ok(())
}
