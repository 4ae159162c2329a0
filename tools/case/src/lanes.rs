//! The destination of an item that differs (docs/RULES.md, R14.5): each lane of a vector register,
//! or bit of a mask, in which recorded and ours are not the same.

use crate::difference::{sides, Seen};
use crate::half::to_decimal;
use crate::table::table;
use ridgecrook_tests::machine::{Step, REGISTER_SIZE};
use ridgecrook_tests::second::encoding::{Destination, Instruction, Source};
use ridgecrook_tests::second::replay::{destination, held};
use ridgecrook_tests::second::step::{half_of, is_on};

/// A register as its 64 bytes: before, recorded, ours.
type Three = [[u8; REGISTER_SIZE]; 3];

/// The name of the destination, and what differs in it.
pub fn register(seen: &Seen, instruction: &Instruction) -> (String, Vec<String>) {
    let before = held(&seen.before.machine, instruction.destination);
    let three = [before, seen.item.destination, destination(&seen.ours)];
    let from = |lane| lane_from(&seen.before, instruction, lane);
    match instruction.destination {
        Destination::Vector(number) => (format!("zmm{number}"), vector_lanes(&three, from)),
        Destination::Mask(number) => (format!("k{number}"), mask_bits(&three, from)),
    }
}

/// What a lane becomes its result from: its operands, in the operation's order and in hex, or why
/// it has none. Of a scalar row lanes 1 to 7 are copied (R5.10).
fn lane_from(before: &Step, instruction: &Instruction, lane: usize) -> String {
    match instruction.listed.upper {
        Some(Source::First) if (1..8).contains(&lane) => format!("zmm{}", instruction.first),
        Some(_) if (1..8).contains(&lane) => "kept".to_string(),
        _ if lane >= instruction.elements => "no element".to_string(),
        _ if !is_on(&before.machine, instruction, lane) => "off".to_string(),
        _ => operands(before, instruction, lane),
    }
}

/// The operands of a lane that is on.
pub fn operands(before: &Step, instruction: &Instruction, lane: usize) -> String {
    let shown = |source: &Source| match half_of(before, instruction, *source, lane) {
        Some(half) => format!("0x{half:04X}"),
        None => "outside".to_string(),
    };
    let sources = instruction.listed.operands.iter();
    sources.map(shown).collect::<Vec<_>>().join(" ")
}

fn half(bytes: &[u8], lane: usize) -> u16 {
    u16::from_le_bytes([bytes[2 * lane], bytes[2 * lane + 1]])
}

/// The bits in hex, and the number that they are.
fn number(half: u16) -> String {
    format!("0x{half:04X} {}", to_decimal(half))
}

fn heading(names: &[&str]) -> Vec<String> {
    names.iter().map(|name| name.to_string()).collect()
}

fn vector_lanes(three: &Three, from: impl Fn(usize) -> String) -> Vec<String> {
    let mut rows = vec![heading(&["lane", "from", "before", "recorded", "ours"])];
    for lane in 0..32 {
        let halves = three.map(|bytes| half(&bytes, lane));
        if halves[1] != halves[2] {
            let front = [lane.to_string(), from(lane)];
            rows.push([&front[..], &halves.map(number)].concat());
        }
    }
    with_others(rows, 32, "lane")
}

/// The table, if it has a row, and how many places are the same.
fn with_others(rows: Vec<Vec<String>>, places: usize, what: &str) -> Vec<String> {
    let differ = rows.len() - 1;
    let mut lines = match differ {
        0 => Vec::new(),
        _ => table(&rows),
    };
    match places - differ {
        0 => {}
        1 => lines.push(format!("the other {what} is the same")),
        same if same == places => lines.push(format!("all {places} {what}s are the same")),
        same => lines.push(format!("the other {same} {what}s are the same")),
    }
    lines
}

/// R14.5: the first eight bytes are the mask, its highest first, and all behind them 0.
fn mask_bits(three: &Three, from: impl Fn(usize) -> String) -> Vec<String> {
    let masks = three.map(|bytes| u64::from_be_bytes(*bytes.first_chunk().expect("8 bytes")));
    let [before, recorded, ours] = masks.map(|mask| format!("0x{mask:X}"));
    let mut lines = vec![format!("before    {before}")];
    lines.extend(sides(recorded, ours));
    let mut rows = vec![heading(&["bit", "from", "before", "recorded", "ours"])];
    for bit in (0..64).filter(|bit| (masks[1] ^ masks[2]) >> bit & 1 == 1) {
        let front = [bit.to_string(), from(bit)];
        let bits = masks.map(|mask| (mask >> bit & 1).to_string());
        rows.push([&front[..], &bits].concat());
    }
    lines.extend(with_others(rows, 64, "bit"));
    let behind = three[1].iter().enumerate().skip(8);
    for (place, byte) in behind.filter(|(_, byte)| **byte != 0) {
        let what = format!("recorded as 0x{byte:02X}, and not 0");
        lines.push(format!("byte {place}, behind the mask, is {what}"));
    }
    lines
}

/// With our answer nothing is decoded, and 64 zero bytes are due.
pub fn undecoded(recorded: &[u8; REGISTER_SIZE]) -> Vec<String> {
    let mut rows = vec![heading(&["lane", "recorded"])];
    for lane in 0..32 {
        let half = half(recorded, lane);
        if half != 0 {
            rows.push(vec![lane.to_string(), number(half)]);
        }
    }
    match rows.len() {
        1 => vec!["both      64 zero bytes".to_string()],
        _ => {
            let ours = "ours      64 zero bytes, since with this answer nothing is decoded";
            [vec![ours.to_string()], table(&rows)].concat()
        }
    }
}
