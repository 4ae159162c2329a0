//! The tool as a process: what it makes runs in the command, what it shows it reads back, and what
//! it refuses it refuses with the right line.

mod damaged;
mod faults;
mod make;
mod process;
mod replay;
mod show;
mod versions;

use process::{case, text};

#[test]
fn arguments() {
    let help = case(&["--help"]);
    assert!(help.status.success());
    assert!(text(&help.stdout).contains("case make FILE.txt > input.bin"));
    for arguments in [
        &[][..],
        &["make"],
        &["show", "a", "b"],
        &["replay"],
        &["build", "a"],
    ] {
        let output = case(arguments);
        assert_eq!(output.status.code(), Some(2), "{arguments:?}");
        assert!(text(&output.stderr).starts_with("usage: "));
    }
    for what in ["make", "show", "replay"] {
        let output = case(&[what, "/nowhere/at-all"]);
        assert_eq!(output.status.code(), Some(1));
        assert!(text(&output.stderr).starts_with("/nowhere/at-all: "));
    }
}
