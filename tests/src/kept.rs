//! The recordings that are kept in tests/data/recordings. Its list.txt has a line for each, `name |
//! report | source`: the report that is due, and where the recording comes from.

use crate::machine::Step;
use crate::recorded;
use crate::recording::Recorder;
use crate::second;
use crate::second::command::saved_size;
use crate::second::replay::{first_item, start, Report};
use crate::step_line::read_outcome;
use std::fs;
use std::path::PathBuf;

pub struct Kept {
    pub name: String,
    pub due: Report,
    pub source: Source,
}

pub enum Source {
    /// `case`: the text name.txt, recorded.
    Case,
    /// `step N`: line N of tests/data/processor.txt, as a recording of one item.
    Step(usize),
    /// `other: change`: another one of the list, changed.
    Changed { other: String, change: Change },
}

pub enum Change {
    /// `item 3 byte 85 is 3D`, or `state byte 4 is 03`.
    Byte { at: Place, value: u8 },
    /// `cut at item 3 byte 85`: nothing from there on.
    Cut(Place),
    /// `without item 3`.
    Without(usize),
}

/// A byte of an item, or of the saved form in front of them.
pub struct Place {
    item: Option<usize>,
    byte: usize,
}

/// The line of the list behind which stands who recorded the cases.
pub const BY: &str = "# recorded by: ";

pub fn folder() -> PathBuf {
    PathBuf::from(concat!(env!("CARGO_MANIFEST_DIR"), "/data/recordings"))
}

pub fn list_file() -> PathBuf {
    folder().join("list.txt")
}

/// Every line of the list.
pub fn all() -> Vec<Kept> {
    let text = fs::read_to_string(list_file()).expect("tests/data/recordings/list.txt");
    let lines = text.lines().filter(|line| !line.starts_with('#'));
    let read = |line: &str| read_line(line).unwrap_or_else(|| panic!("list.txt: {line}"));
    lines.map(read).collect()
}

/// Those that are recorded from a text of their own.
pub fn cases() -> Vec<Kept> {
    let mut kept = all();
    kept.retain(|kept| matches!(kept.source, Source::Case));
    kept
}

impl Kept {
    /// Its file, or that of its text.
    pub fn file(&self, ending: &str) -> PathBuf {
        folder().join(format!("{}.{ending}", self.name))
    }

    pub fn bytes(&self) -> Vec<u8> {
        let file = self.file("bin");
        fs::read(&file).unwrap_or_else(|error| panic!("{}: {error}", file.display()))
    }

    /// What the list says that the file holds; nothing is said of one that was recorded.
    pub fn derived(&self) -> Option<Vec<u8>> {
        match &self.source {
            Source::Case => None,
            Source::Step(line) => Some(of_processor(*line)),
            Source::Changed { other, change } => {
                let all = all();
                let other = all.iter().find(|kept| kept.name == *other);
                Some(change.applied(other.expect("a name of the list").bytes()))
            }
        }
    }
}

/// The steps of a recording whose items are well formed, each from the state that the rules' step
/// before it leaves.
pub fn steps(recording: &[u8]) -> Vec<Step> {
    let (mut machine, mut rest) = start(recording).expect("a state that loads");
    let mut steps = Vec::new();
    while !rest.is_empty() {
        let (item, left) = first_item(rest).expect("an item that is well formed");
        let step = Step {
            machine,
            code: item.code.to_vec(),
            memory: item.memory.to_vec(),
        };
        machine = second::step(&step).after.machine;
        steps.push(step);
        rest = left;
    }
    steps
}

/// A line of the processor's file, counted from 1.
fn of_processor(line: usize) -> Vec<u8> {
    let text = fs::read_to_string(recorded::path()).expect("tests/data/processor.txt");
    let line = text.lines().nth(line - 1).expect("a line of the file");
    let (before, outcome) = read_outcome(line).expect(line);
    Recorder::of_step(&before, outcome).bytes()
}

impl Change {
    fn applied(&self, mut bytes: Vec<u8>) -> Vec<u8> {
        match self {
            Change::Byte { at, value } => {
                let at = at.within(&bytes);
                assert_ne!(bytes[at], *value, "a change that changes nothing");
                bytes[at] = *value;
            }
            Change::Cut(at) => bytes.truncate(at.within(&bytes)),
            Change::Without(item) => {
                let [from, to] = [*item, item + 1].map(|item| item_at(&bytes, item));
                bytes.drain(from..to);
            }
        }
        bytes
    }
}

impl Place {
    fn within(&self, recording: &[u8]) -> usize {
        self.byte + self.item.map_or(0, |item| item_at(recording, item))
    }
}

/// Where an item begins, by the lengths of those before it.
fn item_at(recording: &[u8], item: usize) -> usize {
    let mut at = saved_size(recording).expect("a saved form");
    for _ in 0..item {
        let length = recording[at..].first_chunk().expect("an item");
        at += 4 + u32::from_be_bytes(*length) as usize;
    }
    at
}

fn read_line(line: &str) -> Option<Kept> {
    let mut columns = line.split('|').map(str::trim);
    let (name, due, source) = (columns.next()?, columns.next()?, columns.next()?);
    Some(Kept {
        name: name.to_string(),
        due: read_report(due)?,
        source: read_source(source)?,
    })
}

fn read_report(text: &str) -> Option<Report> {
    let (what, number) = text.rsplit_once(' ')?;
    match what {
        "same" => Some(Report::Same(number.parse().ok()?)),
        "differs at" => Some(Report::Differs(number.parse().ok()?)),
        "bad item" => Some(Report::BadItem(number.parse().ok()?)),
        "bad" if number == "state" => Some(Report::BadState),
        _ => None,
    }
}

fn read_source(text: &str) -> Option<Source> {
    if text == "case" {
        return Some(Source::Case);
    }
    if let Some(line) = text.strip_prefix("step ") {
        return Some(Source::Step(line.parse().ok()?));
    }
    let (other, change) = text.split_once(": ")?;
    Some(Source::Changed {
        other: other.to_string(),
        change: read_change(change)?,
    })
}

fn read_change(text: &str) -> Option<Change> {
    if let Some(place) = text.strip_prefix("cut at ") {
        return Some(Change::Cut(read_place(place)?));
    }
    if let Some(item) = text.strip_prefix("without item ") {
        return Some(Change::Without(item.parse().ok()?));
    }
    let (place, value) = text.split_once(" is ")?;
    Some(Change::Byte {
        at: read_place(place)?,
        value: u8::from_str_radix(value, 16).ok()?,
    })
}

fn read_place(text: &str) -> Option<Place> {
    let (front, byte) = text.split_once(" byte ")?;
    let item = match front {
        "state" => None,
        _ => Some(front.strip_prefix("item ")?.parse().ok()?),
    };
    let byte = byte.parse().ok()?;
    Some(Place { item, byte })
}
