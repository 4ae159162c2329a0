//! The programs as processes, their standard output held against the second program's (R12.3).

use crate::program::{Program, REPLAY, RUN};
use crate::random::Random;
use crate::second;
use std::fs;
use std::path::PathBuf;

/// What is printed for input that is not good (R10.2).
pub const BAD: &str = "bad input\n";

/// A program, what it is to print, what its inputs are called, and the folder where one is kept
/// whose output differs.
pub struct Command {
    pub program: Program,
    output: fn(&[u8]) -> String,
    name: &'static str,
    folder: PathBuf,
}

impl Command {
    /// The command.
    pub fn of(name: &'static str, folder: &str) -> Command {
        Command {
            program: Program::found(&RUN),
            output: second::command::output,
            name,
            folder: folder.into(),
        }
    }

    /// The program that replays a recording.
    pub fn replaying(name: &'static str, folder: &str) -> Command {
        Command {
            program: Program::found(&REPLAY),
            output: second::replay::output,
            name,
            folder: folder.into(),
        }
    }

    fn file(&self, number: usize) -> PathBuf {
        let name = format!("{}-{number}.bin", self.name.replace(' ', "-"));
        self.folder.join(name)
    }

    /// Whether the program prints what the second program does, which is handed back.
    pub fn agrees(&self, number: usize, input: &[u8]) -> String {
        let expected = (self.output)(input);
        let printed = self.program.output(input);
        if printed != expected.as_bytes() {
            let file = self.file(number);
            fs::write(&file, input).expect("an input can be kept");
            let (file, printed) = (file.display(), String::from_utf8_lossy(&printed));
            panic!("{file}: printed\n{printed}expected\n{expected}");
        }
        expected
    }

    /// The same where the input comes in pieces, as a pipe may give it, and from a file.
    pub fn agrees_in_pieces(&self, number: usize, input: &[u8], random: &mut Random) {
        let expected = (self.output)(input);
        let mut pieces = Vec::new();
        let mut rest = input;
        while !rest.is_empty() && pieces.len() < 6 {
            let size = random.within(1, rest.len() as i32) as usize;
            let (piece, left) = rest.split_at(size);
            pieces.push(piece);
            rest = left;
        }
        pieces.push(rest);
        let printed = self.program.output_of_pieces(&pieces);
        assert_eq!(String::from_utf8_lossy(&printed), expected, "in pieces");
        let file = self.file(number);
        fs::write(&file, input).expect("an input can be written");
        let printed = self.program.output_of_file(&file);
        assert_eq!(String::from_utf8_lossy(&printed), expected, "from a file");
        fs::remove_file(&file).expect("an input can be removed");
    }

    /// An input whose output is known.
    pub fn prints(&self, number: usize, input: &[u8], known: &str) {
        assert_eq!(self.agrees(number, input), known, "the second program");
    }
}
