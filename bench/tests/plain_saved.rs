//! The plain program of saved forms is worth timing only if it is right: it is held against the
//! second program and against the library.

use ridgecrook_bench::plain_saved::{load, move_saved, moved_size, save, saved_size};
use ridgecrook_tests::compare::{failure, Comparison};
use ridgecrook_tests::library;
use ridgecrook_tests::machine::Machine;
use ridgecrook_tests::random::Random;
use ridgecrook_tests::saving::{compare_mixtures, done, done_number};
use ridgecrook_tests::second::saved::VERSIONS;
use ridgecrook_tests::transfer::{Call, Transfer, TransferOutcome};

/// What the plain program answers and leaves, which is what the library does.
fn outcome(before: &Transfer) -> TransferOutcome {
    let mut after = before.clone();
    let (machine, bytes) = (&mut after.machine, &mut after.bytes);
    let number = match after.call {
        Call::Save => save(1, machine, bytes),
        Call::SaveVersion(version) => save(version, machine, bytes),
        Call::Load => load(bytes, machine),
        Call::Move(version) => move_saved(version, bytes, &mut after.target),
        Call::SavedSize(version) => saved_size(version, &machine.vectors) as u32,
        Call::MovedSize(version) => moved_size(version, bytes) as u32,
    };
    let plain = TransferOutcome { number, after };
    let by_library = library::transfer_outcome(before);
    let agrees = plain == by_library;
    assert!(agrees, "{}", failure(before, &plain, &by_library));
    plain
}

/// Compares a call that nothing refuses.
fn compare_done(
    comparison: &mut Comparison<Transfer>,
    random: &mut Random,
    call: Call,
    state: &Machine,
) {
    let held = random.one_of(&VERSIONS);
    let outcome = comparison.case(&done(random, call, held, state));
    assert_eq!(outcome.number, done_number(call, state), "{call}");
}

#[test]
fn calls_that_are_done() {
    let mut comparison = Comparison::of(outcome, "plain: calls that are done, seed 10");
    let mut random = Random::seeded(10);
    for call in Call::ALL {
        for _ in 0..2_000 {
            let state = random.sparse_machine();
            compare_done(&mut comparison, &mut random, call, &state);
        }
    }
    comparison.finish(20_000);
}

/// Every set of four registers at either end, alone and with all others.
#[test]
fn sets_of_registers() {
    let mut comparison = Comparison::of(outcome, "plain: sets of registers, seed 11");
    let mut random = Random::seeded(11);
    for set in 0..256_u32 {
        let ends = set >> 4 << 28 | set & 15;
        for word in [ends, !ends] {
            let state = random.machine_with(word);
            for call in Call::ALL {
                compare_done(&mut comparison, &mut random, call, &state);
            }
        }
    }
    comparison.finish(256 * 2 * 10);
}

#[test]
fn mixtures_agree() {
    let comparison = Comparison::of(outcome, "plain: mixtures of calls and refusals, seed 12");
    compare_mixtures(comparison, &mut Random::seeded(12), 60_000);
}
