//! Makes the recordings of tests/data/recordings anew, from what its list says of each: `make
//! recordings`.
//!
//! Cases are recorded on this machine's processor. Where it has not the instructions nothing is
//! done but with `--stand-in`: then what is expected of a processor is written in its place
//! (`tests/src/differences.rs`). The list says which of the two it was. The exit status is 1 if a
//! report is not the one that is due.

use record::{places, record, Executor};
use ridgecrook_tests::kept::{all, cases, list_file, Kept, BY};
use ridgecrook_tests::library;
use std::fs;
use std::process::ExitCode;

fn main() -> ExitCode {
    let arguments: Vec<String> = std::env::args().skip(1).collect();
    let executor: fn() -> Result<Executor, String> = match &arguments[..] {
        [] => Executor::processor,
        [option] if option == "--stand-in" => || Ok(Executor::stand_in()),
        _ => {
            eprintln!("usage: keep, keep --stand-in");
            return ExitCode::from(2);
        }
    };
    match executor() {
        Ok(executor) => keep(executor),
        Err(why) => {
            eprintln!("keep: nothing is recorded here: {why}");
            ExitCode::from(3)
        }
    }
}

/// All cases are recorded before anything is written.
fn keep(mut executor: Executor) -> ExitCode {
    let cases = cases();
    let recorded: Vec<Vec<u8>> = cases
        .iter()
        .map(|case| recorded(case, &mut executor))
        .collect();
    name_in_list(&executor.name);
    let mut due = true;
    for (case, bytes) in cases.iter().zip(&recorded) {
        due &= write(case, bytes);
    }
    let kept = all();
    for one in &kept {
        if let Some(bytes) = one.derived() {
            due &= write(one, &bytes);
        }
    }
    println!("{} recordings, the cases by {}", kept.len(), executor.name);
    match due {
        true => ExitCode::SUCCESS,
        false => ExitCode::from(1),
    }
}

fn recorded(case: &Kept, executor: &mut Executor) -> Vec<u8> {
    let file = case.file("txt");
    let file = file.to_str().expect("a plain name");
    let input = case::read_text(file).unwrap_or_else(|lines| panic!("{}", lines.join("\n")));
    let run = places(&input).and_then(|places| record(&input, &places, executor));
    let run = run.unwrap_or_else(|stop| panic!("{file}: offset {}: {}", stop.offset, stop.why));
    run.recording.bytes()
}

fn name_in_list(name: &str) {
    let list = fs::read_to_string(list_file()).expect("the list");
    let named = |line: &str| match line.starts_with(BY) {
        true => format!("{BY}{name}\n"),
        false => format!("{line}\n"),
    };
    let list: String = list.lines().map(named).collect();
    fs::write(list_file(), list).expect("the list can be written");
}

/// Whether the library's report is the one that is due.
fn write(kept: &Kept, bytes: &[u8]) -> bool {
    fs::write(kept.file("bin"), bytes).expect("a recording can be written");
    let report = library::replay(&mut bytes.to_vec()).report();
    let is_due = report == kept.due;
    let remark = if is_due {
        ""
    } else {
        ", which is not the report due"
    };
    println!("{}: {} bytes, {report}{remark}", kept.name, bytes.len());
    is_due
}
