//! Mode numbers that do not exist (R8.2), every way to say yes (R8.3), and immediates of which the
//! low five bits are read (R8.5).

use ridgecrook_tests::case::{Case, Operation, Outcome, UE};
use ridgecrook_tests::compare::{failure, Comparison};
use ridgecrook_tests::random::Random;
use ridgecrook_tests::{corners, library, second};

/// Above 3; among them are numbers that would be valid if they were cut to 8 or 16 bits, or read
/// by their lowest two bits.
const NO_MODES: [u32; 14] = [
    4,
    5,
    6,
    7,
    8,
    255,
    256,
    257,
    0x0000_FFFF,
    0x0001_0000,
    0x0100_0002,
    0x8000_0000,
    0x8000_0003,
    0xFFFF_FFFF,
];

/// Other than 0; most are 0 if they are cut to fewer bits.
const YES: [u32; 7] = [1, 2, 255, 256, 0x0001_0000, 0x8000_0000, 0xFFFF_FFFF];

/// Pairs of corners, and a third operand for the fused form.
fn corner_operands(operation: Operation) -> Vec<[u16; 3]> {
    let halves = corners::few();
    let mut all = Vec::new();
    for (place, &a) in halves.iter().enumerate() {
        for &b in &halves {
            let mut operands = [a, b, halves[place / 2]];
            operands[operation.operand_count()..].fill(0);
            all.push(operands);
        }
    }
    all
}

/// A mode above 3 answers 9 with the half 0000 and no flag, whatever the other arguments are.
fn check_refused(case: &Case) {
    let refused = Outcome {
        half: 0,
        flags: 0,
        number: 9,
    };
    for outcome in [library::answer(case), second::answer(case)] {
        assert!(outcome == refused, "{}", failure(case, &outcome, &refused));
    }
}

#[test]
fn modes_above_3_are_refused() {
    let mut random = Random::seeded(9);
    let drawn = (0..50).map(|_| (random.bits() as u32).max(4));
    let modes: Vec<u32> = NO_MODES.into_iter().chain(drawn).collect();
    for operation in Operation::rounding() {
        for operands in corner_operands(operation) {
            for (&mode, underflow_unmasked) in modes.iter().zip([0, 1, 256].into_iter().cycle()) {
                check_refused(&Case {
                    mode,
                    underflow_unmasked,
                    ..Case::of(operation, operands)
                });
            }
        }
    }
}

/// Cases in which it matters whether underflow is unmasked: exact and tiny. (No root is tiny.)
const EXACT_AND_TINY: [&str; 5] = [
    "add m0 u0 0001 0200",
    "subtract m1 u0 0400 0001",
    "multiply m2 u0 0400 3800",
    "divide m3 u0 0400 4000",
    "fused_multiply_add m0 u0 0400 3C00 8200",
];

#[test]
fn every_number_but_0_says_yes() {
    for line in EXACT_AND_TINY {
        let masked: Case = line.parse().expect(line);
        assert_eq!(library::answer(&masked).flags & UE, 0, "{masked}");
        for underflow_unmasked in YES {
            let case = Case {
                underflow_unmasked,
                ..masked
            };
            assert_eq!(library::answer(&case).flags & UE, UE, "{case}");
        }
    }
}

/// The same numbers change nothing else: each yes on corners, by the second program.
#[test]
fn every_yes_on_corners() {
    let mut comparison = Comparison::of(library::answer, "every yes");
    let mut cases = 0;
    for operation in Operation::rounding() {
        for operands in corner_operands(operation) {
            for (mode, underflow_unmasked) in (0..4).cycle().zip(YES) {
                cases += 1;
                comparison.case(&Case {
                    mode,
                    underflow_unmasked,
                    ..Case::of(operation, operands)
                });
            }
        }
    }
    comparison.finish(cases);
}

/// Above the low five bits; most are 0 if they are cut to fewer bits.
const UNREAD: [u32; 9] = [
    0x20,
    0x40,
    0x80,
    0xE0,
    0x0000_0100,
    0x0001_0000,
    0x0100_0000,
    0x8000_0000,
    0xFFFF_FFE0,
];

/// A predicate says and raises the same, whatever stands above it, by the library and by the second
/// program.
#[test]
fn five_bits_of_the_immediate_are_read() {
    let mut random = Random::seeded(10);
    let drawn = (0..20).map(|_| random.bits() as u32 & !31);
    let unread: Vec<u32> = UNREAD.into_iter().chain(drawn).collect();
    for [a, b, _] in corner_operands(Operation::Compare) {
        for predicate in 0..32 {
            let plain = Case::comparison(predicate, a, b);
            let expected = second::answer(&plain);
            assert_eq!(library::answer(&plain), expected, "{plain}");
            for upper in &unread {
                let case = Case::comparison(predicate | upper, a, b);
                for outcome in [library::answer(&case), second::answer(&case)] {
                    let agrees = outcome == expected;
                    assert!(agrees, "{}", failure(&case, &outcome, &expected));
                }
            }
        }
    }
}
