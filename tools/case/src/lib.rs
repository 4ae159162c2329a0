//! A case is a state, code and memory: as text that a person can write, and as the bytes that the
//! programs read. `tools/record` reads the same text.

pub mod answer;
pub mod assembler;
mod control;
mod difference;
mod half;
mod item;
mod lanes;
pub mod replay;
mod saved;
mod show;
pub mod state;
mod table;
mod text;

pub use show::{hex, show};

use state::Input;
use std::fs;

/// The case that a file has as text. Notes go to standard error; what is wrong comes back, a line
/// for each fault.
pub fn read_text(file: &str) -> Result<Input, Vec<String>> {
    let bytes = fs::read(file).map_err(|error| vec![format!("{file}: {error}")])?;
    let text = String::from_utf8(bytes).map_err(|error| {
        let good = &error.as_bytes()[..error.utf8_error().valid_up_to()];
        let line = 1 + good.iter().filter(|&&byte| byte == b'\n').count();
        vec![format!("{file}:{line}: this is no text (UTF-8)")]
    })?;
    let reading = text::read(&text);
    for note in reading.notes {
        eprintln!("{file}:{}: note: {}", note.line, note.text);
    }
    let shown = |error: &text::Message| format!("{file}:{}: {}", error.line, error.text);
    let result = reading.result;
    result.map_err(|errors| errors.iter().map(shown).collect())
}
