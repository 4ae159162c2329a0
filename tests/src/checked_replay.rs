//! The library's replay of a recording (R14.9), held against the second program's (R12.3).

use crate::library::{self, Reported};
use crate::second::replay::{replay, Report};
use std::fs;
use std::path::PathBuf;

/// What the recordings of a test are called, and the folder where one is kept whose report differs.
pub struct Replays {
    name: &'static str,
    folder: PathBuf,
}

impl Replays {
    pub fn of(name: &'static str, folder: &str) -> Replays {
        Replays {
            name,
            folder: folder.into(),
        }
    }

    /// Whether the library reports what the second program does, which is handed back, and leaves
    /// the recording as it was.
    pub fn agrees(&self, number: usize, recording: &[u8]) -> Report {
        let expected = replay(recording);
        self.check(number, recording, expected);
        expected
    }

    /// A recording whose report is known, by both programs.
    pub fn reports(&self, number: usize, recording: &[u8], known: Report) {
        let expected = replay(recording);
        assert_eq!(
            expected, known,
            "{}, {number}: the second program",
            self.name
        );
        self.check(number, recording, known);
    }

    /// The library alone.
    pub fn check(&self, number: usize, recording: &[u8], expected: Report) {
        let mut lent = recording.to_vec();
        let reported = library::replay(&mut lent);
        if reported != Reported::from(expected) || lent != recording {
            let file = self.file(number);
            fs::write(&file, recording).expect("a recording can be kept");
            let (file, left) = (file.display(), lent == recording);
            let numbers = Reported::from(expected);
            panic!("{file}: {reported:?} expected {numbers:?}, {expected}; left as it was: {left}");
        }
    }

    fn file(&self, number: usize) -> PathBuf {
        let name = format!("{}-{number}.bin", self.name.replace(' ', "-"));
        self.folder.join(name)
    }
}
