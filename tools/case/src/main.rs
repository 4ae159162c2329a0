//! Makes inputs of the command from text, shows saved states, and says what differs in a recording:
//! `case --help`.

use case::{read_text, replay, show, state};
use std::fs;
use std::io::{stdout, IsTerminal, Write};
use std::process::ExitCode;

const HELP: &str = include_str!("help.txt");

const USAGE: &str = "usage: case make FILE.txt > input.bin, case show FILE.bin, \
                     case replay FILE.bin, case --help";

fn main() -> ExitCode {
    let arguments: Vec<String> = std::env::args().skip(1).collect();
    let words: Vec<&str> = arguments.iter().map(String::as_str).collect();
    let result = match words[..] {
        ["make", file] => make(file),
        ["show", file] => show_file(file),
        ["replay", file] => replay_file(file),
        ["--help" | "-h" | "help"] => print(HELP.as_bytes()),
        _ => {
            eprintln!("{USAGE}");
            return ExitCode::from(2);
        }
    };
    match result {
        Ok(status) => status,
        Err(lines) => {
            lines.iter().for_each(|line| eprintln!("{line}"));
            ExitCode::from(1)
        }
    }
}

type Outcome = Result<ExitCode, Vec<String>>;

fn make(file: &str) -> Outcome {
    if stdout().is_terminal() {
        let advice = format!("case make {file} > input.bin");
        return Err(vec![format!("an input is bytes, not text: {advice}")]);
    }
    print(&read_text(file)?.bytes())
}

fn bytes_of(file: &str) -> Result<Vec<u8>, Vec<String>> {
    fs::read(file).map_err(|error| vec![format!("{file}: {error}")])
}

fn show_file(file: &str) -> Outcome {
    let bytes = bytes_of(file)?;
    // Its items could also be memory behind no code.
    if let Some((state, items)) = replay::state_in(&bytes) {
        eprintln!("{file}: note: this is the state in front of a recording with {items} items");
        return print(show(&state).as_bytes());
    }
    let input = state::read(&bytes);
    let input = input.map_err(|what| vec![format!("{file}: {what}")])?;
    print(show(&input).as_bytes())
}

/// The exit status goes by the report: 0 is `same`.
fn replay_file(file: &str) -> Outcome {
    let explained = replay::explained(&bytes_of(file)?);
    print(explained.text().as_bytes())?;
    Ok(match explained.is_same() {
        true => ExitCode::SUCCESS,
        false => ExitCode::from(1),
    })
}

fn print(bytes: &[u8]) -> Outcome {
    let written = stdout().write_all(bytes).and_then(|()| stdout().flush());
    match written {
        Ok(()) => Ok(ExitCode::SUCCESS),
        Err(error) => Err(vec![format!("standard output: {error}")]),
    }
}
