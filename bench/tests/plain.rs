//! The plain implementation is worth timing only if it is right: it is held against the second
//! program.

use ridgecrook_bench::plain::PLAIN;
use ridgecrook_tests::case::{Case, Operation, Outcome};
use ridgecrook_tests::compare::Comparison;
use ridgecrook_tests::corners;
use ridgecrook_tests::random::{self, Random};

fn answer(case: &Case) -> Outcome {
    PLAIN.answer(case)
}

#[test]
fn every_root() {
    let mut comparison = Comparison::of(answer, "plain: every root");
    for a in 0..=u16::MAX {
        comparison.in_every_mode(&Case::of(Operation::SquareRoot, [a, 0, 0]));
    }
    comparison.finish(65_536 * 8);
}

#[test]
fn corners_and_a_mode_above_3() {
    let mut comparison = Comparison::of(answer, "plain: corners");
    let halves = corners::few();
    for operation in Operation::rounding() {
        for &a in &halves {
            for &b in &halves {
                let mut case = Case {
                    mode: 4,
                    ..Case::of(operation, [a, b, a ^ b])
                };
                case.operands[operation.operand_count()..].fill(0);
                comparison.case(&case);
                comparison.in_every_mode(&case);
            }
        }
    }
    comparison.finish((halves.len().pow(2) * 6 * 9) as u64);
}

/// Minimum, maximum and all 32 predicates of two halves: 34 cases.
fn compare_by_all(comparison: &mut Comparison<Case>, a: u16, b: u16) {
    for operation in [Operation::Minimum, Operation::Maximum] {
        comparison.case(&Case::of(operation, [a, b, 0]));
    }
    for immediate in 0..32 {
        comparison.case(&Case::comparison(immediate, a, b));
    }
}

#[test]
fn corners_that_are_compared() {
    let mut comparison = Comparison::of(answer, "plain: corners that are compared");
    let halves = corners::all();
    for &a in &halves {
        for &b in &halves {
            compare_by_all(&mut comparison, a, b);
        }
    }
    comparison.finish((halves.len().pow(2) * 34) as u64);
}

/// Itself, its neighbours, and it and the next one with the other sign.
#[test]
fn every_half_beside_those_next_to_it() {
    let mut comparison = Comparison::of(answer, "plain: every half beside those next to it");
    for a in 0..=u16::MAX {
        let (next, last) = (a.wrapping_add(1), a.wrapping_sub(1));
        for b in [a, next, last, a ^ 0x8000, next ^ 0x8000] {
            compare_by_all(&mut comparison, a, b);
        }
    }
    comparison.finish(65_536 * 5 * 34);
}

/// R3.15: also with bits of an immediate that are not read.
#[test]
fn random_cases() {
    let mut comparison = Comparison::of(answer, "plain: random cases, seed 3");
    let mut random = Random::seeded(3);
    for operation in Operation::ALL {
        for _ in 0..500_000 {
            comparison.case(&random::case(&mut random, operation));
        }
    }
    comparison.finish(4_500_000);
}
