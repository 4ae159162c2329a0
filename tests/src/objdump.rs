//! Instructions as text, by GNU objdump where it is there.

use crate::own_file::own_file;
use std::process::Command;

const OPTIONS: [&str; 8] = [
    "-D",
    "-b",
    "binary",
    "-m",
    "i386:x86-64",
    "-M",
    "intel",
    "-w",
];

/// What objdump writes of some bytes: `address: text`, a line for each instruction; nothing where
/// there is no objdump. It is an error if they cannot be handed to it.
pub fn disassembled(bytes: &[u8]) -> std::io::Result<Vec<String>> {
    let file = own_file("code");
    std::fs::write(&file, bytes)?;
    let run = Command::new("objdump").args(OPTIONS).arg(&file).output();
    std::fs::remove_file(&file)?;
    let output = run.map(|output| output.stdout).unwrap_or_default();
    let text = String::from_utf8_lossy(&output);
    Ok(text.lines().filter_map(instruction).collect())
}

/// A line is an address, a tab, bytes, a tab, text, and perhaps a comment.
fn instruction(line: &str) -> Option<String> {
    let mut parts = line.split('\t');
    let (address, text) = (parts.next()?.trim(), parts.nth(1)?);
    let text = text.split('#').next()?.trim();
    Some(format!("{address} {text}"))
}

/// The text of a single instruction; none where there is no objdump that knows it.
pub fn text_of(code: &[u8]) -> Option<String> {
    let lines = disassembled(code).ok()?;
    let [line] = &lines[..] else {
        return None;
    };
    let (_, text) = line.split_once(": ")?;
    (!text.contains("(bad)")).then(|| text.to_string())
}

/// VADDPH zmm0, zmm1, zmm2, and whether there is an objdump that knows it.
pub const KNOWN: [u8; 6] = [0x62, 0xF5, 0x74, 0x48, 0x58, 0xC2];

pub fn is_there() -> bool {
    let lines = disassembled(&KNOWN).expect("the temporary folder takes a file");
    lines == ["0: vaddph zmm0,zmm1,zmm2"]
}

#[cfg(test)]
mod tests {
    use super::*;
    use crate::compare::log;

    #[test]
    fn one_instruction() {
        if !is_there() {
            log("skipped: no objdump that knows AVX512-FP16");
            return;
        }
        assert_eq!(text_of(&KNOWN).as_deref(), Some("vaddph zmm0,zmm1,zmm2"));
        // Two of them, none, a cut one, and one that is none.
        assert_eq!(text_of(&[KNOWN, KNOWN].concat()), None);
        assert_eq!(text_of(&[]), None);
        assert_eq!(text_of(&KNOWN[..5]), None);
        assert_eq!(text_of(&[0x62, 0xF5, 0x74, 0x48, 0x00, 0xC2]), None);
    }
}
