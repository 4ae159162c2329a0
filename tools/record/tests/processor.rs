//! The recorder on this machine's processor, where it has the instructions. One test: there is one
//! runner a program.

use record::{places, record, Executor};
use ridgecrook_tests::compare::log;
use ridgecrook_tests::kept;
use ridgecrook_tests::library;
use std::process::Command;

/// What is recorded of each kept case is what is kept of it, byte for byte, by a process too, and
/// it gives the report that is due: `same`, but where the difference is known (R7.6).
#[test]
fn what_is_recorded_here() {
    let mut executor = match Executor::processor() {
        Ok(executor) if case::assembler::is_there() => executor,
        Ok(_) => return log("skipped: no as on this machine that knows the instructions"),
        Err(why) => return log(&format!("skipped: {why}")),
    };
    let cases = kept::cases();
    let mut items = 0;
    for kept in &cases {
        let file = kept.file("txt");
        let file = file.to_str().expect("a plain name");
        let input = case::read_text(file).expect("a case that is read");
        let places = places(&input).expect("a case that is decoded");
        let run = record(&input, &places, &mut executor).expect("it can be recorded");
        let bytes = run.recording.bytes();
        let report = library::replay(&mut bytes.clone()).report();
        assert_eq!(report, kept.due, "{} on {}", kept.name, executor.name);
        assert_eq!(bytes, kept.bytes(), "{} on {}", kept.name, executor.name);
        let output = Command::new(env!("CARGO_BIN_EXE_record"))
            .arg(file)
            .output();
        let output = output.expect("the tool starts");
        assert_eq!(output.stdout, bytes, "{file}");
        assert!(
            output.status.success() && !output.stderr.is_empty(),
            "{file}"
        );
        items += run.recording.items.len();
    }
    let (count, name) = (cases.len(), &executor.name);
    log(&format!("recorded on {name}: {count} cases, {items} items"));
}
