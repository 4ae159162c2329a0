//! Minimum, maximum and every predicate (R6.25 to R6.28) against this machine's processor, by
//! singles of the same kinds and order: it need not know halves.

use ridgecrook_tests::case::{Case, Operation};
use ridgecrook_tests::compare::{failure, log};
use ridgecrook_tests::processor::singles;
use ridgecrook_tests::{corners, library, second};

/// Halves and flags by the processor, the library and the second program.
fn agree(case: &Case) {
    let expected = singles::answer(case);
    for outcome in [second::answer(case), library::answer(case)] {
        let agrees = outcome == expected;
        assert!(agrees, "{}", failure(case, &outcome, &expected));
    }
}

#[test]
fn the_processor_compares_singles_so() {
    if !singles::are_here() {
        log("skipped: the processor has no AVX, and no predicates of singles");
        return;
    }
    let halves = corners::few();
    for (a, b) in halves
        .iter()
        .flat_map(|&a| halves.iter().map(move |&b| (a, b)))
    {
        agree(&Case::of(Operation::Minimum, [a, b, 0]));
        agree(&Case::of(Operation::Maximum, [a, b, 0]));
        for predicate in 0..32 {
            agree(&Case::comparison(predicate, a, b));
        }
    }
}
