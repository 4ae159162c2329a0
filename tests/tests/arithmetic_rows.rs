//! Cases that a person wrote, one row each, held against the second program and the library. Those
//! of docs/RULES.md are in `rules.rs`.

use ridgecrook_tests::case::{Case, Operation, Outcome, DE, IE};
use ridgecrook_tests::compare::failure;
use ridgecrook_tests::predicates::{predicate, PAIRS, SIGNALLING};
use ridgecrook_tests::second::comparison::predicate_name;
use ridgecrook_tests::{library, second};

/// A case, and its half and flags as an outcome prints them.
type Row = (&'static str, &'static str);

/// Mistakes that were made or nearly made, each under what it teaches.
const TRAPS: &[Row] = &[
    // R6.6: no DE beside a NaN.
    ("add m0 u0 7E00 0001", "7E00 ......"),
    ("add m0 u0 0001 7C01", "7E01 I....."),
    ("fused_multiply_add m0 u0 0001 3C00 7E00", "7E00 ......"),
    ("square_root m0 u0 FC01", "FE01 I....."),
    // R6.7: no DE beside an invalid result.
    ("square_root m0 u0 8001", "FE00 I....."),
    ("fused_multiply_add m0 u0 0000 7C00 0001", "FE00 I....."),
    // R6.8: no DE beside a zero-divide.
    ("divide m0 u0 8001 0000", "FC00 ..Z..."),
    // R6.9: DE beside an infinity or a zero.
    ("add m0 u0 7C00 0001", "7C00 .D...."),
    ("subtract m0 u0 0001 7C00", "FC00 .D...."),
    ("multiply m0 u0 0001 FC00", "FC00 .D...."),
    ("multiply m0 u0 0001 8000", "8000 .D...."),
    ("divide m0 u0 7C00 0001", "7C00 .D...."),
    ("divide m0 u0 0001 FC00", "8000 .D...."),
    ("divide m0 u0 8000 0001", "8000 .D...."),
    ("fused_multiply_add m0 u0 7C00 0001 3C00", "7C00 .D...."),
    ("fused_multiply_add m0 u0 3C00 7C00 0001", "7C00 .D...."),
    ("fused_multiply_add m0 u0 0001 3C00 FC00", "FC00 .D...."),
    ("fused_multiply_add m1 u0 0001 3C00 8001", "8000 .D...."),
    // R6.13: subtraction does not turn a NaN's sign.
    ("subtract m0 u0 3C00 7E01", "7E01 ......"),
    ("subtract m0 u0 3C00 FD00", "FF00 I....."),
    // R6.10: infinity divided by zero gives no ZE.
    ("divide m0 u0 7C00 0000", "7C00 ......"),
    ("divide m0 u0 7C00 8000", "FC00 ......"),
    // R6.6: the first NaN is returned even when a later one signals.
    ("multiply m0 u0 FE02 7C01", "FE02 I....."),
    ("divide m0 u0 7E02 FC01", "7E02 I....."),
    ("fused_multiply_add m0 u0 7E02 7C01 7C03", "7E02 I....."),
    ("fused_multiply_add m0 u0 3C00 7E02 7C01", "7E02 I....."),
    ("fused_multiply_add m0 u0 3C00 3C00 7C01", "7E01 I....."),
    // R6.6 comes before R6.7: a NaN addend, and zero times infinity.
    ("fused_multiply_add m0 u0 0000 7C00 7E05", "7E05 ......"),
    ("fused_multiply_add m0 u0 7C00 0000 FC05", "FE05 I....."),
    // R6.23: an exact tiny result with underflow unmasked has UE alone; with it masked, nothing.
    ("add m0 u1 0001 0001", "0002 .D..U."),
    ("add m0 u0 0001 0001", "0002 .D...."),
    ("subtract m0 u1 0401 0400", "0001 ....U."),
    ("divide m0 u1 0400 4000", "0200 ....U."),
    ("fused_multiply_add m0 u1 0400 3C00 8200", "0200 .D..U."),
    // R6.21: a zero is not tiny, also with underflow unmasked.
    ("subtract m0 u1 0001 0001", "0000 .D...."),
    ("multiply m0 u1 0000 3C00", "0000 ......"),
    // R6.21: tiny is told after rounding. 2 to the -14 less 2 to the -26 may become 2 to the -14 on
    // 11 bits; less 2 to the -25 it has 11 bits and is tiny, even where 0400 is delivered.
    ("fused_multiply_add m0 u0 8400 0C00 0400", "0400 .....P"),
    ("fused_multiply_add m2 u0 8400 0C00 0400", "0400 .....P"),
    ("fused_multiply_add m3 u0 8400 0C00 0400", "03FF ....UP"),
    ("fused_multiply_add m0 u0 8400 1000 0400", "0400 ....UP"),
    ("fused_multiply_add m2 u0 8400 1000 0400", "0400 ....UP"),
    ("fused_multiply_add m1 u0 8400 1000 0400", "03FF ....UP"),
    ("divide m0 u0 0FFF 4800", "0400 ....UP"),
    // R6.24: the sign stays, also of what is rounded to zero.
    ("multiply m0 u0 8001 0001", "8000 .D..UP"),
    ("multiply m1 u0 8001 0001", "8001 .D..UP"),
    ("multiply m2 u0 8001 0001", "8000 .D..UP"),
    ("multiply m2 u0 0001 0001", "0001 .D..UP"),
    // R6.11, R6.12: the sign of a zero product, quotient or sum.
    ("multiply m1 u0 0000 3C00", "0000 ......"),
    ("multiply m0 u0 8000 3C00", "8000 ......"),
    ("divide m0 u0 0000 BC00", "8000 ......"),
    ("add m0 u0 8000 8000", "8000 ......"),
    ("add m1 u0 0000 0000", "0000 ......"),
    ("add m0 u0 0000 8000", "0000 ......"),
    ("add m1 u0 0000 8000", "8000 ......"),
    ("subtract m1 u0 3C00 3C00", "8000 ......"),
    ("subtract m0 u0 8000 0000", "8000 ......"),
    ("fused_multiply_add m0 u0 3C00 3C00 BC00", "0000 ......"),
    ("fused_multiply_add m1 u0 3C00 3C00 BC00", "8000 ......"),
    ("fused_multiply_add m0 u0 8000 3C00 8000", "8000 ......"),
    ("square_root m1 u0 8000", "8000 ......"),
    // R6.20: overflow by mode; the largest half with PE alone where 11 bits stay below 65,536.
    ("add m1 u0 7BFF 7BFF", "7BFF ...O.P"),
    ("add m2 u0 FBFF FBFF", "FBFF ...O.P"),
    ("add m3 u0 7BFF 7BFF", "7BFF ...O.P"),
    ("add m1 u0 FBFF FBFF", "FC00 ...O.P"),
    ("add m3 u0 7BFF 4FFF", "7BFF .....P"),
    ("add m2 u0 7BFF 0001", "7C00 .D.O.P"),
    ("divide m0 u0 7BFF 0001", "7C00 .D.O.P"),
    // R6.15: a fused form rounds once, and its product may pass the largest half.
    ("fused_multiply_add m0 u0 7BFF 4000 FBFF", "7BFF ......"),
    ("fused_multiply_add m0 u0 0001 0001 3C00", "3C00 .D...P"),
    ("fused_multiply_add m2 u0 0001 0001 3C00", "3C01 .D...P"),
    // R6.7, R6.10: infinities.
    ("subtract m0 u0 7C00 7C00", "FE00 I....."),
    ("square_root m0 u0 7C00", "7C00 ......"),
];

/// Minimum, maximum and comparison, each under what it teaches.
const COMPARED: &[Row] = &[
    // R6.26: of zeros the second, whatever the signs; so of equal halves, which then are the same.
    ("minimum 0000 8000", "8000 ......"),
    ("minimum 8000 0000", "0000 ......"),
    ("maximum 0000 8000", "8000 ......"),
    ("maximum 8000 0000", "0000 ......"),
    ("minimum 3C00 3C00", "3C00 ......"),
    // Signs, infinities, the largest.
    ("minimum BC00 3C00", "BC00 ......"),
    ("minimum BC00 C000", "C000 ......"),
    ("maximum BC00 C000", "BC00 ......"),
    ("minimum 7C00 7BFF", "7BFF ......"),
    ("maximum 7BFF 7C00", "7C00 ......"),
    ("minimum FC00 FBFF", "FC00 ......"),
    ("maximum FC00 FBFF", "FBFF ......"),
    // Of NaNs the second too, as it is: not the NaN, not the number, not made quiet.
    ("minimum 7E01 3C00", "3C00 I....."),
    ("minimum 3C00 7E01", "7E01 I....."),
    ("maximum 7C01 3C00", "3C00 I....."),
    ("maximum 3C00 FC01", "FC01 I....."),
    ("minimum 7C01 7D02", "7D02 I....."),
    ("maximum FD02 7E01", "7E01 I....."),
    ("minimum 7E01 7C00", "7C00 I....."),
    // R6.27: DE by either operand, but not beside a NaN.
    ("minimum 0001 3C00", "0001 .D...."),
    ("minimum 3C00 83FF", "83FF .D...."),
    ("maximum 03FF 0000", "03FF .D...."),
    ("maximum 0000 8001", "0000 .D...."),
    ("maximum 7C00 0001", "7C00 .D...."),
    ("minimum 0001 7E00", "7E00 I....."),
    ("maximum 7C01 8001", "8001 I....."),
    ("minimum 0400 0000", "0000 ......"),
    // R6.25: zeros are equal, infinities are numbers: EQ_OQ, LT_OS, GE_OQ.
    ("compare i0 0000 8000", "0001 ......"),
    ("compare i1 8000 0000", "0000 ......"),
    ("compare i29 8000 0000", "0001 ......"),
    ("compare i0 7C00 7C00", "0001 ......"),
    ("compare i1 FC00 7C00", "0001 ......"),
    ("compare i1 7BFF 7C00", "0001 ......"),
    // R6.27: a quiet NaN by LT_OQ and LT_OS, a signalling one by LT_OQ; DE beside none of them.
    ("compare i17 7E00 3C00", "0000 ......"),
    ("compare i1 7E00 3C00", "0000 I....."),
    ("compare i17 3C00 7C01", "0000 I....."),
    ("compare i17 7E00 0001", "0000 ......"),
    ("compare i1 0001 7E00", "0000 I....."),
    ("compare i17 0001 0002", "0001 .D...."),
    ("compare i11 8001 3C00", "0000 .D...."),
    ("compare i15 3C00 0001", "0001 .D...."),
    // R8.5: an immediate with higher bits too, which count for nothing.
    ("compare i32 3C00 3C00", "0001 ......"),
    ("compare i4294967265 3C00 4000", "0001 ......"),
    ("compare i2147483648 3C00 4000", "0000 ......"),
];

fn failures(rows: &[Row], name: &str, answer: fn(&Case) -> Outcome) -> usize {
    let mut failed = 0;
    for (line, expected) in rows {
        let case: Case = line.parse().expect(line);
        assert_eq!(case.to_string(), *line, "the row is written as it prints");
        let outcome = answer(&case);
        if outcome.to_string() != format!("{expected} 0") {
            failed += 1;
            eprintln!("{name}: {case} => {outcome} expected {expected} 0");
        }
    }
    failed
}

#[test]
fn traps_by_the_second_program() {
    assert_eq!(failures(TRAPS, "second program", second::answer), 0);
}

#[test]
fn traps_by_the_library() {
    assert_eq!(failures(TRAPS, "library", library::answer), 0);
}

#[test]
fn compared_by_the_second_program() {
    assert_eq!(failures(COMPARED, "second program", second::answer), 0);
}

#[test]
fn compared_by_the_library() {
    assert_eq!(failures(COMPARED, "library", library::answer), 0);
}

/// R6.27, of two halves and whether a quiet NaN is signalled; `pairs` is their place among PAIRS.
fn flags(pairs: usize, [a, b]: [u16; 2], signals: bool) -> u8 {
    let is_subnormal = |half: u16| (1..0x0400).contains(&(half & 0x7FFF));
    match pairs {
        SIGNALLING => IE,
        3 if signals => IE,
        3 => 0,
        _ if is_subnormal(a) || is_subnormal(b) => DE,
        _ => 0,
    }
}

/// Fails where one of the two programs gives something else.
fn both_give(case: &Case, half: u16, flags: u8) {
    let expected = Outcome {
        half,
        flags,
        number: 0,
    };
    for outcome in [second::answer(case), library::answer(case)] {
        let agrees = outcome == expected;
        assert!(agrees, "{}", failure(case, &outcome, &expected));
    }
}

/// R6.28: each predicate on halves of each relation, and with each kind of NaN, by the table that a
/// person wrote.
#[test]
fn every_predicate_by_its_table() {
    for number in 0..32 {
        let row = predicate(number);
        assert_eq!(predicate_name(number as u32), row.name, "{number}");
        for (place, pairs) in PAIRS.iter().enumerate() {
            for &(a, b) in *pairs {
                let case = Case::comparison(number as u32, a, b);
                let half = u16::from(row.holds[place.min(3)]);
                both_give(&case, half, flags(place, [a, b], row.signals));
            }
        }
    }
}

/// R6.26: minimum and maximum of the same halves.
#[test]
fn minimum_and_maximum_by_the_relation() {
    for (place, pairs) in PAIRS.iter().enumerate() {
        for &(a, b) in *pairs {
            let flags = flags(place, [a, b], true);
            let [minimum, maximum] = [[a, b, b, b, b], [b, b, a, b, b]].map(|halves| halves[place]);
            for (operation, half) in [(Operation::Minimum, minimum), (Operation::Maximum, maximum)]
            {
                both_give(&Case::of(operation, [a, b, 0]), half, flags);
            }
        }
    }
}
