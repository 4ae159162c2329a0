//! Records a case on this machine's processor: `record --help`.

use record::{of_file, Executor, Failure};
use std::io::{stdout, IsTerminal, Write};
use std::process::ExitCode;

const HELP: &str = include_str!("help.txt");

/// The exit status where the case is at fault, or the output, and where the processor is.
const WRONG: u8 = 1;
const UNABLE: u8 = 3;

fn main() -> ExitCode {
    let arguments: Vec<String> = std::env::args().skip(1).collect();
    let words: Vec<&str> = arguments.iter().map(String::as_str).collect();
    let result = match words[..] {
        ["--help" | "-h" | "help"] => print(HELP.as_bytes()),
        [file] if !file.starts_with('-') => record_file(file),
        _ => {
            eprintln!("usage: record CASE.txt > recording.bin, record --help");
            return ExitCode::from(2);
        }
    };
    match result {
        Ok(()) => ExitCode::SUCCESS,
        Err((status, lines)) => {
            say(&lines);
            ExitCode::from(status)
        }
    }
}

type Outcome = Result<(), (u8, Vec<String>)>;

fn say(lines: &[String]) {
    lines.iter().for_each(|line| eprintln!("{line}"));
}

fn record_file(file: &str) -> Outcome {
    if stdout().is_terminal() {
        let advice = format!("a recording is bytes, not text: record {file} > recording.bin");
        return Err((WRONG, vec![advice]));
    }
    let written = of_file(file, Executor::processor).map_err(|failure| match failure {
        Failure::Case(lines) => (WRONG, lines),
        Failure::Processor(why) => {
            let line = format!("record: nothing is recorded here: {why}");
            (UNABLE, vec![line])
        }
    })?;
    print(&written.bytes)?;
    say(&written.notes);
    Ok(())
}

fn print(bytes: &[u8]) -> Outcome {
    let written = stdout().write_all(bytes).and_then(|()| stdout().flush());
    written.map_err(|error| (WRONG, vec![format!("standard output: {error}")]))
}
