//! One of the programs as a process of its own, fed by a pipe.

use std::fs;
use std::io::Write;
use std::path::{Path, PathBuf};
use std::process::{Child, Command, Stdio};
use std::thread;
use std::time::Duration;

pub struct Program {
    path: PathBuf,
}

/// Where a program is looked for.
pub struct Place {
    /// Its crate, by whose name `make` writes it below the project root.
    pub name: &'static str,
    /// What may name another file in the environment.
    pub variable: &'static str,
}

/// The command.
pub const RUN: Place = Place {
    name: "run",
    variable: "RIDGECROOK_COMMAND",
};

/// The program that replays a recording.
pub const REPLAY: Place = Place {
    name: "replay",
    variable: "RIDGECROOK_REPLAY",
};

impl Program {
    /// The file that the environment names, else what `make` writes. A missing one is a
    /// failure, since nothing would be tested.
    pub fn found(place: &Place) -> Program {
        let root = Path::new(env!("CARGO_MANIFEST_DIR")).parent();
        let root = root.expect("the tests stand in a folder of the project");
        let name = place.name;
        let path = match std::env::var_os(place.variable) {
            Some(path) => PathBuf::from(path),
            None => root.join("target/bin").join(name),
        };
        let is_there = path.is_file();
        let (path_shown, root) = (path.display(), root.display());
        assert!(
            is_there,
            "the program {path_shown} is missing: run `make` in {root}"
        );
        Program { path }
    }

    fn start(&self) -> Child {
        let mut command = Command::new(&self.path);
        command.stdin(Stdio::piped()).stdout(Stdio::piped());
        let started = command.spawn();
        started.unwrap_or_else(|error| panic!("{}: {error}", self.path.display()))
    }

    /// What the program prints when it is given these pieces, one after another with a short pause
    /// between them. It may end before it has read all.
    pub fn output_of_pieces(&self, pieces: &[&[u8]]) -> Vec<u8> {
        let mut child = self.start();
        let mut input = child.stdin.take().expect("standard input is a pipe");
        for (number, piece) in pieces.iter().enumerate() {
            if number > 0 {
                thread::sleep(Duration::from_millis(2));
            }
            if input.write_all(piece).is_err() {
                break;
            }
        }
        drop(input);
        self.finish(child)
    }

    pub fn output(&self, input: &[u8]) -> Vec<u8> {
        self.output_of_pieces(&[input])
    }

    /// The same with an open file as standard input.
    pub fn output_of_file(&self, file: &Path) -> Vec<u8> {
        let input = fs::File::open(file).expect("the input can be read");
        let mut command = Command::new(&self.path);
        let output = command.stdin(input).stdout(Stdio::piped()).spawn();
        self.finish(output.expect("the program starts"))
    }

    /// What is printed on standard output and on standard error, with any standard input; the exit
    /// status is 0 (R10.7, R14.10).
    pub fn printed(&self, stdin: impl Into<Stdio>) -> (Vec<u8>, Vec<u8>) {
        let output = Command::new(&self.path).stdin(stdin).output();
        let output = output.expect("the program starts");
        assert!(output.status.success(), "the program: {}", output.status);
        (output.stdout, output.stderr)
    }

    /// What is printed, of a program that ends by itself, with exit status 0 (R10.7, R14.10).
    fn finish(&self, child: Child) -> Vec<u8> {
        let output = child.wait_with_output().expect("the program ends");
        assert!(output.status.success(), "the program: {}", output.status);
        output.stdout
    }
}
