//! A save, a load, a move or a size that is asked for as the tests hold it, what it leaves, and the
//! one line that it is printed as:
//! `save bytes=000000 control=00001F80 k1=3 => 1`
//! `move=2 bytes=000000 control=00001F80 target=0000 => 10`
//!
//! The first word is the name in the C interface and the version asked for. The rest is the line of
//! a step (see `step_line`), with other names for its byte strings; behind `=>` stand the answer and
//! each field that the call changed.

use crate::machine::{Machine, Step};
use crate::step_line::shown_changes;
use std::fmt;
use std::str::FromStr;

/// A function of the C interface, with the version that it is asked for.
#[derive(Clone, Copy, Debug, PartialEq, Eq)]
pub enum Call {
    Save,
    SaveVersion(u32),
    Load,
    Move(u32),
    SavedSize(u32),
    MovedSize(u32),
}

use Call::*;

impl Call {
    /// Each with each version that there is (R9.1).
    pub const ALL: [Call; 10] = [
        Save,
        SaveVersion(1),
        SaveVersion(2),
        Load,
        Move(1),
        Move(2),
        SavedSize(1),
        SavedSize(2),
        MovedSize(1),
        MovedSize(2),
    ];

    /// The name that follows `ridgecrook_` in the C interface.
    pub fn name(self) -> &'static str {
        match self {
            Save => "save",
            SaveVersion(_) => "save_version",
            Load => "load",
            Move(_) => "move",
            SavedSize(_) => "saved_size",
            MovedSize(_) => "moved_size",
        }
    }

    /// The version that it is asked for, where it can be asked.
    pub fn asked(self) -> Option<u32> {
        match self {
            Save | Load => None,
            SaveVersion(version) | Move(version) => Some(version),
            SavedSize(version) | MovedSize(version) => Some(version),
        }
    }

    /// The same, asked for that version.
    pub fn asking(self, version: u32) -> Call {
        match self {
            Save | Load => self,
            SaveVersion(_) => SaveVersion(version),
            Move(_) => Move(version),
            SavedSize(_) => SavedSize(version),
            MovedSize(_) => MovedSize(version),
        }
    }

    /// Whether it reads a saved form.
    pub fn reads(self) -> bool {
        matches!(self, Load | Move(_) | MovedSize(_))
    }

    /// Whether it only asks for a size.
    pub fn asks_size(self) -> bool {
        matches!(self, SavedSize(_) | MovedSize(_))
    }
}

impl fmt::Display for Call {
    fn fmt(&self, f: &mut fmt::Formatter) -> fmt::Result {
        write!(f, "{}", self.name())?;
        match self.asked() {
            Some(version) => write!(f, "={version:X}"),
            None => Ok(()),
        }
    }
}

impl FromStr for Call {
    type Err = String;

    fn from_str(word: &str) -> Result<Call, String> {
        let (name, version) = match word.split_once('=') {
            Some((name, digits)) => {
                let version = u32::from_str_radix(digits, 16);
                (name, Some(version.map_err(|error| error.to_string())?))
            }
            None => (word, None),
        };
        let asking = |call: Call| call.asking(version.unwrap_or(0));
        let is_meant = |call: &Call| call.name() == name && call.asked() == version;
        let call = Call::ALL.into_iter().map(asking).find(is_meant);
        call.ok_or(format!("{word} is no call with a saved form"))
    }
}

/// A call and all that is lent to it. `bytes` are the target of a save, or the saved form that a
/// load or a move reads; `target` is a move's. Each byte string may have any size.
#[derive(Clone, Debug, PartialEq, Eq)]
pub struct Transfer {
    pub call: Call,
    pub machine: Machine,
    pub bytes: Vec<u8>,
    pub target: Vec<u8>,
}

/// The answer, which may be a size, and all that was lent as it stands after the call.
#[derive(Clone, Debug, PartialEq, Eq)]
pub struct TransferOutcome {
    pub number: u32,
    pub after: Transfer,
}

impl Transfer {
    /// The step that has the same fields, with the bytes as its code and the target as its memory.
    fn as_step(&self) -> Step {
        Step {
            machine: self.machine.clone(),
            code: self.bytes.clone(),
            memory: self.target.clone(),
        }
    }
}

/// The names of the fields, for those of the step.
const NAMES: [(&str, &str); 2] = [(" bytes=", " code="), (" target=", " memory=")];

/// Fields of a step with the names of a transfer's.
fn renamed(line: &str) -> String {
    let rename = |line: String, (name, of_step): (&str, &str)| line.replace(of_step, name);
    NAMES.into_iter().fold(line.to_string(), rename)
}

impl TransferOutcome {
    /// The part of a line behind `=>`.
    pub fn shown(&self, before: &Transfer) -> String {
        let changes = shown_changes(&before.as_step(), &self.after.as_step());
        format!("{}{}", self.number, renamed(&changes))
    }
}

impl fmt::Display for Transfer {
    fn fmt(&self, f: &mut fmt::Formatter) -> fmt::Result {
        let line = self.as_step().to_string();
        let call = self.call.to_string();
        write!(f, "{}", renamed(&line).replacen("step", &call, 1))
    }
}

impl FromStr for Transfer {
    type Err = String;

    fn from_str(line: &str) -> Result<Transfer, String> {
        let word = line.split_whitespace().next().unwrap_or("");
        let call = word.parse()?;
        let rename = |line: String, (name, of_step): (&str, &str)| line.replace(name, of_step);
        let line = NAMES
            .into_iter()
            .fold(line.replacen(word, "step", 1), rename);
        let step: Step = line.parse()?;
        Ok(Transfer {
            call,
            machine: step.machine,
            bytes: step.code,
            target: step.memory,
        })
    }
}

#[cfg(test)]
mod tests {
    use super::*;

    #[test]
    fn a_printed_line_is_read_back() {
        for (line, call) in [
            ("save bytes= control=00001F80", Save),
            ("save_version=2 bytes=00 control=00001F80", SaveVersion(2)),
            (
                "load bytes=00FF control=FFFF1F80 k1=3 r15=10 vectors=130 z0=0001 rest=00A5",
                Load,
            ),
            (
                "move=2000000 bytes=00 control=00001F80 target=0001",
                Move(0x0200_0000),
            ),
            (
                "saved_size=1 bytes= control=00001F80 z31=8000",
                SavedSize(1),
            ),
            (
                "moved_size=FFFFFFFF bytes= control=00001F80",
                MovedSize(u32::MAX),
            ),
        ] {
            let transfer: Transfer = line.parse().expect(line);
            assert_eq!(transfer.call, call);
            assert_eq!(transfer.to_string(), line);
            assert_eq!(format!("{line} => 1 expected 2").parse(), Ok(transfer));
        }
    }

    #[test]
    fn a_wrong_line_is_refused() {
        for word in [
            "step", "save=1", "load=", "move", "move=", "move=G", "moved=1", "",
        ] {
            let line = format!("{word} bytes= control=00001F80");
            assert!(line.parse::<Transfer>().is_err(), "{line}");
        }
    }

    #[test]
    fn an_outcome_shows_what_changed() {
        let before: Transfer = "move=1 bytes=0000 k1=3 target=0102".parse().unwrap();
        let mut after = before.clone();
        after.bytes[1] = 7;
        after.target[1] = 0;
        after.machine.masks[1] = 4;
        let outcome = TransferOutcome { number: 0, after };
        assert_eq!(outcome.shown(&before), "0 bytes=0007 k1=4 target=0100");
    }
}
