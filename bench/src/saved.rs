//! The rows of saved forms: saves, loads, moves and sizes, by version and by how many of the 32
//! vector registers are present (R9.8).

use crate::{sum, time, Pass, Row, Timed};
use ridgecrook_bench::plain_saved;
use ridgecrook_tests::library;
use ridgecrook_tests::machine::{Machine, REGISTER_SIZE, VECTORS_SIZE};
use ridgecrook_tests::random::Random;

pub const SETTING: &str = "saved forms: of random states, of which so many registers are present
and the others all zero; which ones they are differs from call to call.";

/// So many states, taken by turns.
const STATES: usize = 64;
const CALLS: usize = 16 * STATES;

/// One implementation.
#[derive(Clone, Copy)]
struct Program {
    save: fn(u32, &mut Machine, &mut [u8]) -> u32,
    load: fn(&mut [u8], &mut Machine) -> u32,
    move_saved: fn(u32, &mut [u8], &mut [u8]) -> u32,
    saved_size: fn(u32, &mut [u8]) -> usize,
    moved_size: fn(u32, &mut [u8]) -> usize,
}

const PROGRAMS: [Program; 2] = [
    Program {
        save: library::save_version,
        load: library::load,
        move_saved: library::move_saved,
        saved_size: library::saved_size,
        moved_size: library::moved_size,
    },
    Program {
        save: |version, machine, target| plain_saved::save(version, machine, target),
        load: |saved, machine| plain_saved::load(saved, machine),
        move_saved: |version, source, target| plain_saved::move_saved(version, source, target),
        saved_size: |version, vectors| plain_saved::saved_size(version, vectors),
        moved_size: |version, source| plain_saved::moved_size(version, source),
    },
];

/// A state in which so many registers have any bytes, and the others none but 0.
fn state(random: &mut Random, present: usize) -> Machine {
    let mut machine = random.machine();
    let mut zero = VECTORS_SIZE / REGISTER_SIZE - present;
    while zero > 0 {
        let at = REGISTER_SIZE * random.within(0, 31) as usize;
        let register = &mut machine.vectors[at..][..REGISTER_SIZE];
        if sum(register) != 0 {
            register.fill(0);
            zero -= 1;
        }
    }
    machine
}

fn states(present: usize) -> Vec<Machine> {
    let mut random = Random::seeded(9);
    (0..STATES).map(|_| state(&mut random, present)).collect()
}

/// Each state's form, by the plain program.
fn forms(version: u32, present: usize) -> Vec<Vec<u8>> {
    let form = |machine: Machine| {
        let mut target = vec![0; plain_saved::saved_size(version, &machine.vectors)];
        assert_eq!(plain_saved::save(version, &machine, &mut target), 0);
        target
    };
    states(present).into_iter().map(form).collect()
}

/// A place for a form: all of a row have one size.
fn target(version: u32, present: usize) -> Vec<u8> {
    forms(version, present).swap_remove(0)
}

/// Times calls that are done. The end of what each writes goes into the digest, and all of what the
/// last one wrote.
fn written(target: &mut [u8], mut call: impl FnMut(usize, &mut [u8]) -> u32) -> Timed {
    let (elapsed, digest) = time(CALLS, |place| {
        assert_eq!(call(place % STATES, target), 0);
        end(target)
    });
    (elapsed, digest ^ sum(target))
}

fn end(bytes: &[u8]) -> u64 {
    bytes.last_chunk().map_or(0, |end| u64::from_le_bytes(*end))
}

fn saves(program: Program, version: u32, present: usize) -> Pass {
    let (mut states, mut target) = (states(present), target(version, present));
    Box::new(move || {
        written(&mut target, |place, target| {
            (program.save)(version, &mut states[place], target)
        })
    })
}

fn loads(program: Program, version: u32, present: usize) -> Pass {
    let mut forms = forms(version, present);
    let mut machine = Machine::blank();
    Box::new(move || {
        let (elapsed, digest) = time(CALLS, |place| {
            assert_eq!((program.load)(&mut forms[place % STATES], &mut machine), 0);
            machine.pointer ^ end(&machine.vectors)
        });
        (elapsed, digest ^ sum(&machine.vectors))
    })
}

fn moves(program: Program, from: u32, to: u32, present: usize) -> Pass {
    let (mut sources, mut target) = (forms(from, present), target(to, present));
    Box::new(move || {
        written(&mut target, |place, target| {
            (program.move_saved)(to, &mut sources[place], target)
        })
    })
}

fn saved_sizes(program: Program, version: u32, present: usize) -> Pass {
    let mut states = states(present);
    Box::new(move || {
        time(CALLS, |place| {
            (program.saved_size)(version, &mut states[place % STATES].vectors) as u64
        })
    })
}

fn moved_sizes(program: Program, from: u32, to: u32, present: usize) -> Pass {
    let mut sources = forms(from, present);
    Box::new(move || {
        time(CALLS, |place| {
            (program.moved_size)(to, &mut sources[place % STATES]) as u64
        })
    })
}

fn row(name: &str, kind: &str, pass: impl Fn(Program) -> Pass) -> Row {
    Row::of(name, kind, PROGRAMS.map(pass))
}

/// A row of version 1, where it makes no difference which registers are present, and three of
/// version 2.
fn versions(name: &str, pass: fn(Program, u32, usize) -> Pass) -> Vec<Row> {
    let mut rows = vec![row(name, "version 1", |program| pass(program, 1, 8))];
    rows.extend(shares(name, pass));
    rows
}

fn shares(name: &str, pass: fn(Program, u32, usize) -> Pass) -> [Row; 3] {
    [0, 8, 32].map(|present| {
        let kind = format!("version 2, {present} registers");
        row(name, &kind, |program| pass(program, 2, present))
    })
}

/// A row for each of these counts of registers, from each version to the other.
fn ways(name: &str, counts: &[usize], pass: fn(Program, u32, u32, usize) -> Pass) -> Vec<Row> {
    let mut rows = Vec::new();
    for (from, to) in [(1, 2), (2, 1)] {
        for &present in counts {
            let kind = format!("{from} to {to}, {present} registers");
            rows.push(row(name, &kind, |program| pass(program, from, to, present)));
        }
    }
    rows
}

pub fn rows() -> Vec<Row> {
    let mut rows = versions("save", saves);
    rows.extend(versions("load", loads));
    rows.extend(ways("move", &[8, 32], moves));
    rows.extend(shares("saved_size", saved_sizes));
    rows.extend(ways("moved_size", &[8], moved_sizes));
    rows
}
