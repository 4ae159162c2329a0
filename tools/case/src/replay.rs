//! The replay of a recording for a person: the report (docs/RULES.md, R14.7), and all there is to
//! say of the item that it names.

use crate::difference::{self, Seen};
use crate::item::{self, counts, Item};
use crate::saved;
use crate::state::Input;
use ridgecrook_tests::library;
use ridgecrook_tests::machine::{Machine, Step};
use ridgecrook_tests::second::replay::Report;

/// A report, and what more there is to say of it.
pub struct Explained {
    report: Report,
    more: Vec<String>,
}

impl Explained {
    /// The line of the program `replay` first.
    pub fn text(&self) -> String {
        let line = self.report.to_string();
        let all = [&[line], &self.more[..]].concat();
        all.join("\n") + "\n"
    }

    pub fn is_same(&self) -> bool {
        matches!(self.report, Report::Same(_))
    }
}

/// What the library reports of a recording, of any length.
pub fn explained(recording: &[u8]) -> Explained {
    let report = library::replay(&mut recording.to_vec()).report();
    let more = match report {
        Report::Same(_) => Vec::new(),
        Report::Differs(number) => differing(reached(recording, number)),
        Report::BadItem(number) => bad(reached(recording, number)),
        Report::BadState => bad_state(recording),
    };
    Explained { report, more }
}

/// R9.13: the state ends where its length field says.
fn bad_state(recording: &[u8]) -> Vec<String> {
    let length = recording
        .first_chunk()
        .map(|&field| u32::from_be_bytes(field));
    let end = length.map_or(recording.len(), |length| 4 + length as usize);
    let fault = match recording.get(..end) {
        Some(form) => fault(saved::read(form)),
        None => format!(
            "its length field is {}, and {} bytes follow it",
            end - 4,
            recording.len() - 4
        ),
    };
    vec![format!("the saved state in front: {fault}")]
}

/// The state in front of a recording that has items, and how many there are; none of other bytes.
pub fn state_in(bytes: &[u8]) -> Option<(Input, usize)> {
    let front = saved::read(bytes).ok()?;
    let (mut rest, mut items) = (front.rest, 0);
    while !rest.is_empty() {
        rest = &rest[item::read(rest).ok()?.size()..];
        items += 1;
    }
    let state = Input {
        version: front.version,
        state: front.state,
        ..Input::blank()
    };
    (items > 0).then_some((state, items))
}

/// Where the replay has come to an item.
struct Reached<'a> {
    number: u64,
    at: usize,
    rest: &'a [u8],
    machine: Machine,
}

impl Reached<'_> {
    fn place(&self) -> String {
        format!("item {}, from byte {} on", self.number, self.at)
    }
}

/// Makes the steps of all items before this one, which are good, by the library.
fn reached(recording: &[u8], number: u64) -> Reached<'_> {
    let front = saved::read(recording).unwrap_or_else(|what| panic!("it loads: {what}"));
    let mut machine = front.state.machine();
    let mut rest = front.rest;
    for number in 0..number {
        let item = item::read(rest).unwrap_or_else(|what| panic!("item {number}: {what}"));
        library::step(&mut machine, item.code, item.memory);
        rest = &rest[item.size()..];
    }
    Reached {
        number,
        at: recording.len() - rest.len(),
        rest,
        machine,
    }
}

fn bad(reached: Reached) -> Vec<String> {
    let place = reached.place();
    vec![format!("{place}: {}", fault(item::read(reached.rest)))]
}

/// Of bytes that the library does not take.
fn fault<T>(read: Result<T, String>) -> String {
    read.err().expect("what is not taken has a fault")
}

fn differing(reached: Reached) -> Vec<String> {
    let item = item::read(reached.rest).unwrap_or_else(|what| panic!("it differs: {what}"));
    let (size, counts) = (item.size(), counts(item.code.len(), item.memory.len()));
    let first = format!("{}: {size} bytes, with {counts}", reached.place());
    let mut lines = vec![first];
    lines.extend(difference::lines(&seen(item, reached.machine)));
    lines
}

/// The item beside the library's step.
fn seen(item: Item, before: Machine) -> Seen {
    let before = Step {
        machine: before,
        code: item.code.to_vec(),
        memory: item.memory.to_vec(),
    };
    let ours = library::step_outcome(&before);
    Seen { item, before, ours }
}
