//! A state as text that `make` reads back: what is a remark stands behind `#`.

use crate::control::described;
use crate::half::to_decimal;
use crate::saved::Version;
use crate::state::{is_zero, Input, State, GENERAL};

const BYTES_A_LINE: usize = 16;

pub fn show(input: &Input) -> String {
    let mut lines = version(input.version);
    lines.push(control(input.state.control));
    let pointer = input.state.pointer;
    lines.push(line("pointer", &format!("0x{pointer:X}"), ""));
    lines.extend(numbers(&input.state));
    for (number, lanes) in input.state.vectors.iter().enumerate() {
        if !is_zero(lanes) {
            lines.extend(vector(number, lanes));
        }
    }
    lines.extend(zeros(&input.state));
    lines.extend(code(&input.code));
    lines.extend(memory(&input.memory));
    lines.join("\n") + "\n"
}

/// A name, what it has, and a remark.
fn line(name: &str, value: &str, remark: &str) -> String {
    match remark {
        "" => format!("{name:<9} {value}"),
        _ => format!("{name:<9} {value:<10} # {remark}"),
    }
}

/// Version 1 is what `make` takes where no line says another.
fn version(version: Version) -> Vec<String> {
    match version {
        Version::One => Vec::new(),
        Version::Two => vec![line("version", "2", "")],
    }
}

fn control(word: u32) -> String {
    line("control", &format!("0x{word:04X}"), &described(word))
}

/// The masks and general registers that are not zero.
fn numbers(state: &State) -> Vec<String> {
    let mut lines = Vec::new();
    for (name, &value) in GENERAL.iter().zip(&state.general) {
        if value != 0 {
            lines.push(line(name, &format!("0x{value:X}"), &value.to_string()));
        }
    }
    for (number, &value) in state.masks.iter().enumerate() {
        if value != 0 {
            let name = format!("k{number}");
            lines.push(line(&name, &format!("0x{value:X}"), &lanes_on(value)));
        }
    }
    lines
}

/// How many lanes a mask has on, and which, as a comparison leaves them; bits above them have no
/// lane.
fn lanes_on(mask: u64) -> String {
    let mut runs = Vec::new();
    let mut lane = 0;
    while lane < 32 {
        let count = (mask as u32 >> lane).trailing_ones();
        match count {
            0 => {}
            1 => runs.push(format!("{lane}")),
            _ => runs.push(format!("{lane} to {}", lane + count - 1)),
        }
        lane += count + 1;
    }
    let mut remark = format!("{} of 32 lanes on", (mask as u32).count_ones());
    if !runs.is_empty() {
        remark += &format!(": {}", runs.join(", "));
    }
    if mask >> 32 != 0 {
        remark += "; bits above 31";
    }
    remark
}

/// A line for each lane, or for neighbours that are equal.
fn vector(number: usize, lanes: &[u16; 32]) -> Vec<String> {
    let mut lines = Vec::new();
    let mut first = 0;
    for run in lanes.chunk_by(|a, b| a == b) {
        let (half, count) = (run[0], run.len());
        let last = first + count - 1;
        let decimal = to_decimal(half);
        let name = format!("zmm{number}[{first}]");
        lines.push(match count {
            1 => line(&name, &format!("0x{half:04X}"), &decimal),
            _ => {
                let remark = format!("{decimal}, lanes {first} to {last}");
                line(&name, &format!("0x{half:04X}*{count}"), &remark)
            }
        });
        first += count;
    }
    lines
}

/// How many registers of each kind are zero and were not shown.
fn zeros(state: &State) -> Vec<String> {
    let of = |registers: &[u64]| registers.iter().filter(|&&value| value == 0).count();
    let vectors = state.vectors.iter();
    let zero_vectors = vectors.filter(|lanes| is_zero(lanes));
    let counts = [
        (of(&state.general), 16, "general registers"),
        (of(&state.masks), 8, "masks"),
        (zero_vectors.count(), 32, "vector registers"),
    ];
    let shown = counts.map(|(zero, all, kind)| format!("{zero} of {all} {kind}"));
    vec![format!("# all zero: {}", shown.join(", "))]
}

pub fn hex(bytes: &[u8]) -> String {
    let pairs: Vec<String> = bytes.iter().map(|byte| format!("{byte:02X}")).collect();
    pairs.join(" ")
}

fn code(bytes: &[u8]) -> Vec<String> {
    let rows = bytes.chunks(BYTES_A_LINE);
    rows.map(|row| line("code", &hex(row), "")).collect()
}

/// Rows of bytes; rows of zeros together.
fn memory(bytes: &[u8]) -> Vec<String> {
    let rows: Vec<&[u8]> = bytes.chunks(BYTES_A_LINE).collect();
    let is_zero = |row: &&[u8]| row.iter().all(|&byte| byte == 0);
    let mut lines = Vec::new();
    for group in rows.chunk_by(|a, b| is_zero(a) && is_zero(b)) {
        if is_zero(&group[0]) {
            let count: usize = group.iter().map(|row| row.len()).sum();
            lines.push(line("memory", &format!("zeros {count}"), ""));
        } else {
            let value = format!("bytes {}", hex(group[0]));
            lines.push(line("memory", &value, ""));
        }
    }
    lines
}
