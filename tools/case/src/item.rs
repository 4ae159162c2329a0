//! An item of a recording (docs/RULES.md, R14.2), and what is wrong with one that is not well
//! formed (R14.3).

use ridgecrook_tests::machine::REGISTER_SIZE;
use ridgecrook_tests::second::replay::{CODE_LIMIT, ITEM_VERSION, MEMORY_LIMIT};

pub struct Item<'a> {
    pub answer: u8,
    pub code: &'a [u8],
    pub memory: &'a [u8],
    pub control: u32,
    pub destination: [u8; REGISTER_SIZE],
}

/// The length field, the version, the answer, and how many bytes of code there are.
const HEAD: usize = LENGTH_FIELD + 3;
const LENGTH_FIELD: usize = 4;
/// How many bytes of memory there are.
const COUNT: usize = 2;
const CONTROL: usize = 4;

/// How many bytes an item has with so many of code and of memory.
const fn size(code: usize, memory: usize) -> usize {
    HEAD + code + COUNT + memory + CONTROL + REGISTER_SIZE
}

impl Item<'_> {
    pub fn size(&self) -> usize {
        size(self.code.len(), self.memory.len())
    }
}

/// The item in front of the bytes, or what is wrong with it.
pub fn read(bytes: &[u8]) -> Result<Item<'_>, String> {
    let (held, smallest) = (bytes.len(), size(0, 0));
    if held < smallest {
        let left = left(held);
        return Err(format!("{left}, and the smallest item has {smallest}"));
    }
    let version = bytes[LENGTH_FIELD];
    if version != ITEM_VERSION {
        return Err(format!("its version is {version}, and not {ITEM_VERSION}"));
    }
    let code = usize::from(bytes[HEAD - 1]);
    if code > CODE_LIMIT {
        return Err(format!(
            "it counts {code} bytes of code, more than {CODE_LIMIT}"
        ));
    }
    let memory = number(&bytes[HEAD + code..], COUNT) as usize;
    if memory > MEMORY_LIMIT {
        return Err(format!(
            "it counts {memory} bytes of memory, more than {MEMORY_LIMIT}"
        ));
    }
    let (size, counts) = (size(code, memory), counts(code, memory));
    let (length, due) = (number(bytes, LENGTH_FIELD), size - LENGTH_FIELD);
    if length as usize != due {
        return Err(format!(
            "its length field is {length}, and not {due} as with {counts}"
        ));
    }
    if held < size {
        let left = left(held);
        return Err(format!("{left}, and an item with {counts} has {size}"));
    }
    Ok(parts(bytes, code, memory))
}

/// What stands in an item that is well formed.
fn parts(bytes: &[u8], code: usize, memory: usize) -> Item<'_> {
    let (code, rest) = bytes[HEAD..].split_at(code);
    let (memory, rest) = rest[COUNT..].split_at(memory);
    let destination = rest[CONTROL..][..REGISTER_SIZE].try_into();
    Item {
        answer: bytes[LENGTH_FIELD + 1],
        code,
        memory,
        control: number(rest, CONTROL),
        destination: destination.expect("64 bytes"),
    }
}

fn left(bytes: usize) -> String {
    match bytes {
        1 => "1 byte is left".to_string(),
        _ => format!("{bytes} bytes are left"),
    }
}

/// The two counts in words.
pub fn counts(code: usize, memory: usize) -> String {
    let of = |count: usize, what: &str| match count {
        0 => format!("no {what}"),
        1 => format!("1 byte of {what}"),
        _ => format!("{count} bytes of {what}"),
    };
    format!("{} and {}", of(code, "code"), of(memory, "memory"))
}

/// R14.2: a number in front of the bytes, its highest byte first.
fn number(bytes: &[u8], size: usize) -> u32 {
    let bytes = bytes[..size].iter();
    bytes.fold(0, |sum, &byte| sum << 8 | u32::from(byte))
}
