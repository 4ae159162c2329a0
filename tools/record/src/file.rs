//! The recording of a case in a file, and what there is to say of it.

use crate::{places, record, Executor, Run, Stop};
use case::answer;
use ridgecrook_tests::second::replay::INPUT_LIMIT;

/// A recording, and what a reader of it should know, a line each.
#[derive(Debug)]
pub struct Written {
    pub bytes: Vec<u8>,
    pub notes: Vec<String>,
}

#[derive(Debug, PartialEq, Eq)]
pub enum Failure {
    /// What is wrong with the case, a line each.
    Case(Vec<String>),
    /// Why the processor cannot.
    Processor(String),
}

/// Records a case. All that is wrong with it is said before the executor is asked for.
pub fn of_file(
    file: &str,
    executor: impl FnOnce() -> Result<Executor, String>,
) -> Result<Written, Failure> {
    let at = |stop: Stop| {
        let Stop { offset, why } = stop;
        Failure::Case(vec![format!("{file}: offset {offset}: {why}")])
    };
    let input = case::read_text(file).map_err(Failure::Case)?;
    let places = places(&input).map_err(at)?;
    let mut executor = executor().map_err(Failure::Processor)?;
    let run = record(&input, &places, &mut executor).map_err(at)?;
    let bytes = run.recording.bytes();
    let notes = notes(&run, bytes.len(), &executor.name);
    let notes = notes.iter().map(|note| format!("{file}: {note}"));
    Ok(Written {
        notes: notes.collect(),
        bytes,
    })
}

fn notes(run: &Run, size: usize, name: &str) -> Vec<String> {
    let items = match run.recording.items.len() {
        1 => "1 item".to_string(),
        count => format!("{count} items"),
    };
    let mut notes = vec![format!("{items}, {size} bytes, by {name}")];
    if let Some((offset, number)) = run.refused {
        let answer = answer::described(number);
        notes.push(format!(
            "offset {offset} was answered {answer}, and is the last item"
        ));
    }
    if size > INPUT_LIMIT {
        let others = "`case replay` and ridgecrook_replay take more";
        notes.push(format!(
            "target/bin/replay takes {INPUT_LIMIT} bytes; {others}"
        ));
    }
    notes
}
