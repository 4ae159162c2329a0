//! Trips and sizes (R9.7, R9.10 to R9.12) by the library alone: what is saved is loaded, what is
//! loaded is saved, what is moved is moved back, a move is a load and a save, and a size that was
//! asked for is the one that is needed.

use ridgecrook_tests::library;
use ridgecrook_tests::machine::{Machine, REGISTER_SIZE, VECTORS_SIZE};
use ridgecrook_tests::random::Random;
use ridgecrook_tests::saving::{mixture, random, states};
use ridgecrook_tests::second::saved::VERSIONS;
use ridgecrook_tests::transfer::Call;

/// The bytes that the library saves a state as, in the size that it asks for.
fn saved(version: u32, machine: &Machine) -> Vec<u8> {
    let mut machine = machine.clone();
    let size = library::saved_size(version, &mut machine.vectors);
    let mut target = vec![0xA5; size];
    let answer = library::save_version(version, &mut machine, &mut target);
    assert_eq!(answer, 0, "a save in version {version} to {size} bytes");
    target
}

/// The bytes that the library moves a form to, in the size that it asks for.
fn moved(version: u32, source: &[u8]) -> Vec<u8> {
    let mut source = source.to_vec();
    let size = library::moved_size(version, &mut source);
    let mut target = vec![0xA5; size];
    let answer = library::move_saved(version, &mut source, &mut target);
    assert_eq!(answer, 0, "a move to version {version} and {size} bytes");
    target
}

/// The state that the library loads over another.
fn loaded(random: &mut Random, bytes: &[u8]) -> Machine {
    let mut machine = random.machine();
    assert_eq!(library::load(&mut bytes.to_vec(), &mut machine), 0);
    machine
}

/// A form of any bytes, made from the table of R9.1 alone: at least one byte of each register that
/// is marked is not 0.
fn any_form(random: &mut Random, version: u32) -> Vec<u8> {
    let mut file = random.bytes(VECTORS_SIZE);
    if version == 2 {
        let word = random.bits() as u32 & random.bits() as u32;
        file.truncate(REGISTER_SIZE * word.count_ones() as usize);
        for register in file.chunks_mut(REGISTER_SIZE) {
            if random.once_in(3) {
                register.fill(0);
            }
            register[random.within(0, 63) as usize] = random.within(1, 255) as u8;
        }
        file = [&word.to_be_bytes(), &file[..]].concat();
    }
    let length = 1 + 4 + 8 + 128 + 64 + file.len() as u32;
    let mut bytes = length.to_be_bytes().to_vec();
    bytes.extend([version as u8, 0, 0]);
    bytes.extend(random.bytes(2 + 8 + 128 + 64));
    bytes.extend(file);
    bytes
}

/// R9.7: save, then load, whatever stood where the state goes.
#[test]
fn what_was_saved_is_loaded() {
    let mut random = random();
    for _ in 0..states() {
        let machine = random.sparse_machine();
        let mut sizes = Vec::new();
        for version in VERSIONS {
            let bytes = saved(version, &machine);
            assert_eq!(loaded(&mut random, &bytes), machine);
            sizes.push(bytes.len());
        }
        let empty = machine.vectors.chunks(REGISTER_SIZE);
        let empty = empty.filter(|register| register.iter().all(|&b| b == 0));
        // R9.9: the word costs four bytes, and each register that is left out saves 64.
        assert_eq!(sizes[1], sizes[0] + 4 - REGISTER_SIZE * empty.count());
    }
}

/// R9.7: load, then save in the same version.
#[test]
fn what_was_loaded_is_saved() {
    let mut random = random();
    for _ in 0..states() {
        for version in VERSIONS {
            let bytes = any_form(&mut random, version);
            let machine = loaded(&mut random, &bytes);
            assert_eq!(machine.vectors.len(), VECTORS_SIZE);
            assert_eq!(saved(version, &machine), bytes);
        }
    }
}

/// R9.10, R9.11: a move is a load and a save, to its own version a copy, and it leads back.
#[test]
fn what_was_moved_is_moved_back() {
    let mut random = random();
    for _ in 0..states() {
        for version in VERSIONS {
            let bytes = any_form(&mut random, version);
            let machine = loaded(&mut random, &bytes);
            let other = 3 - version;
            let there = moved(other, &bytes);
            assert_ne!(there, bytes);
            assert_eq!(there, saved(other, &machine));
            assert_eq!(moved(version, &there), bytes);
            assert_eq!(moved(version, &bytes), bytes);
        }
    }
}

/// What the move answers and what a load and a save answer, where the load has a vector file of the
/// right size and the version is one that there is.
#[test]
fn a_move_is_a_load_and_a_save() {
    let mut random = random();
    let mut answers = [0; 11];
    for _ in 0..3 * states() {
        let mut transfer = mixture(&mut random);
        let Call::Move(version @ 1..=2) = transfer.call else {
            continue;
        };
        let mut target = transfer.target.clone();
        let moved = library::move_saved(version, &mut transfer.bytes, &mut transfer.target);
        let mut machine = Machine::blank();
        let mut answer = library::load(&mut transfer.bytes, &mut machine);
        if answer == 0 {
            answer = library::save_version(version, &mut machine, &mut target);
        }
        assert_eq!((moved, transfer.target), (answer, target));
        answers[moved as usize] += 1;
    }
    if states() >= 10_000 {
        for number in [0, 1, 2, 10] {
            assert!(answers[number] >= 100, "{number}: {answers:?}");
        }
    }
}

/// R9.12: the size is 0 exactly where no target would do for the version, the vector file or the
/// source; and one of that size does.
#[test]
fn sizes_are_those_needed() {
    let mut random = random();
    let mut counts = [[0; 2]; 2];
    for _ in 0..3 * states() {
        let mut transfer = mixture(&mut random);
        let (bytes, machine) = (&mut transfer.bytes, &mut transfer.machine);
        let (size, answer) = match transfer.call {
            Call::SavedSize(version) => {
                let size = library::saved_size(version, &mut machine.vectors);
                let mut target = vec![0xA5; size];
                machine.control &= 0xFFFF;
                (size, library::save_version(version, machine, &mut target))
            }
            Call::MovedSize(version) => {
                let size = library::moved_size(version, bytes);
                let mut target = vec![0xA5; size];
                (size, library::move_saved(version, bytes, &mut target))
            }
            _ => continue,
        };
        assert_eq!(size == 0, answer != 0, "{}: {answer}", transfer.call);
        counts[usize::from(transfer.call.reads())][usize::from(size == 0)] += 1;
    }
    if states() >= 10_000 {
        assert!(
            counts.iter().flatten().all(|&count| count >= 100),
            "{counts:?}"
        );
    }
}
