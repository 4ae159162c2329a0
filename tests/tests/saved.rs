//! The saved form in its two versions (R9.1 to R9.9, R12.3) by library and second program: forms
//! written out by hand, random states, sets of present registers, registers of a single byte,
//! control words. All that is lent to a call is compared after it, so a refusal that changes
//! anything differs.
//!
//! `RIDGECROOK_SEED` sets the seed, `RIDGECROOK_STATES` the number of random states of each test.

use ridgecrook_tests::compare::Comparison;
use ridgecrook_tests::library;
use ridgecrook_tests::machine::{Machine, REGISTER_SIZE};
use ridgecrook_tests::random::Random;
use ridgecrook_tests::saving::{
    check_unchanged, compared, done, done_number, random, states, versions_held,
};
use ridgecrook_tests::second::saved::{form, LARGEST_SIZE, SMALLEST_SIZE, VERSIONS, WHOLE_SIZE};
use ridgecrook_tests::transfer::{Call, Transfer};

/// Holds each call with a state against the second program; none is refused.
fn every_call(comparison: &mut Comparison<Transfer>, random: &mut Random, state: &Machine) {
    for call in Call::ALL {
        for &held in versions_held(call) {
            let outcome = comparison.case(&done(random, call, held, state));
            assert_eq!(outcome.number, done_number(call, state), "{call}");
        }
    }
}

/// As many as those are: saves and their sizes, and of each version a load, moves and their sizes.
const CALLS: u64 = 5 + 2 * 5;

#[test]
fn random_states_agree() {
    let mut random = random();
    let mut comparison = compared("calls with random states");
    let count = states().div_ceil(5);
    for _ in 0..count {
        let state = random.sparse_machine();
        every_call(&mut comparison, &mut random, &state);
    }
    comparison.finish(CALLS * count);
}

/// The bytes of a text: pairs of digits, and `00x200` for a byte that stands 200 times.
fn spelled(text: &str) -> Vec<u8> {
    let mut bytes = Vec::new();
    for word in text.split_whitespace() {
        let (digits, count) = word.split_once('x').unwrap_or((word, "1"));
        let line = format!("load bytes={digits}");
        let piece = line.parse::<Transfer>().expect(word).bytes;
        bytes.extend(piece.repeat(count.parse().expect(word)));
    }
    bytes
}

/// States, as a line has them, and their forms in version 2 and in version 1 (R9.1, R9.8).
const ROWS: [(&str, &str, &str); 9] = [
    (
        "control=00001F80",
        "000000D1 02 00001F80 00x200 00000000",
        "000008CD 01 00001F80 00x200 00x2048",
    ),
    (
        "control=00000000 z0=3C01",
        "00000111 02 00000000 00x200 00000001 013C 00x62",
        "000008CD 01 00000000 00x200 013C 00x2046",
    ),
    (
        "control=0000FFFF z31=0000x31,BC02",
        "00000111 02 0000FFFF 00x200 80000000 00x62 02BC",
        "000008CD 01 0000FFFF 00x200 00x2046 02BC",
    ),
    // A register of negative zeros is present.
    (
        "z16=8000x32",
        "00000111 02 00001F80 00x200 00010000 0080x32",
        "000008CD 01 00001F80 00x200 00x1024 0080x32 00x960",
    ),
    // Neighbours on both sides of a byte of the word, in rising order.
    (
        "z7=0007 z8=0800",
        "00000151 02 00001F80 00x200 00000180 0700 00x62 0008 00x62",
        "000008CD 01 00001F80 00x200 00x448 0700 00x62 0008 00x62 00x1472",
    ),
    (
        "z15=0100 z23=0000,0001 z24=0000x31,8000",
        "00000191 02 00001F80 00x200 01808000 0001 00x62 00x2 0100 00x60 00x63 80",
        "000008CD 01 00001F80 00x200 00x961 01 00x62 00x448 00x2 0100 00x60 00x63 80 00x448",
    ),
    (
        "z0=1111x32 z1=2222x32 z30=3333x32 z31=4444x32",
        "000001D1 02 00001F80 00x200 C0000003 11x64 22x64 33x64 44x64",
        "000008CD 01 00001F80 00x200 11x64 22x64 00x1792 33x64 44x64",
    ),
    // The numbers, each in its place.
    (
        "control=00009F81 pointer=102030405060708 k0=3132333435363738 k7=4142434445464748 \
         r0=1112131415161718 r15=2122232425262728 z5=0000,A5A5",
        "00000111 02 00009F81 0102030405060708 1112131415161718 00x112 2122232425262728 \
         3132333435363738 00x48 4142434445464748 00000020 0000A5A5 00x60",
        "000008CD 01 00009F81 0102030405060708 1112131415161718 00x112 2122232425262728 \
         3132333435363738 00x48 4142434445464748 00x320 0000A5A5 00x60 00x1664",
    ),
    (
        "k1=1 r4=FFFFFFFFFFFFFFFF z2=0001",
        "00000111 02 00001F80 00x8 00x32 FFx8 00x88 00x8 0000000000000001 00x48 00000004 0100 \
         00x62",
        "000008CD 01 00001F80 00x8 00x32 FFx8 00x88 00x8 0000000000000001 00x48 00x128 0100 \
         00x1918",
    ),
];

/// The rows by both programs: saves, loads and moves from each form to each.
#[test]
fn forms_written_out() {
    for (line, packed, whole) in ROWS {
        let machine = format!("save {line}")
            .parse::<Transfer>()
            .expect(line)
            .machine;
        let forms = [spelled(whole), spelled(packed)];
        assert_eq!(forms[0].len(), WHOLE_SIZE, "{line}");
        for (version, expected) in VERSIONS.into_iter().zip(&forms) {
            assert_eq!(form(&machine, version), *expected, "second program: {line}");
            let mut target = vec![0xA5; expected.len()];
            let saved = library::save_version(version, &mut machine.clone(), &mut target);
            assert_eq!((saved, &target), (0, expected), "{line}");
            let mut loaded = random().machine();
            let answer = library::load(&mut expected.clone(), &mut loaded);
            assert_eq!((answer, &loaded), (0, &machine), "{line}");
            for source in &forms {
                target.fill(0xA5);
                let moved = library::move_saved(version, &mut source.clone(), &mut target);
                assert_eq!((moved, &target), (0, expected), "{line}");
            }
        }
        let mut target = vec![0xA5; WHOLE_SIZE];
        assert_eq!(library::save(&mut machine.clone(), &mut target), 0);
        assert_eq!(target, forms[0], "{line}");
    }
}

/// None, all, each alone, each missing, and any.
#[test]
fn sets_of_registers() {
    let mut random = random();
    let mut comparison = compared("sets of present registers");
    let mut words = vec![0, u32::MAX];
    words.extend((0..32).flat_map(|number| [1 << number, !(1 << number)]));
    words.extend((0..100).map(|_| random.bits() as u32));
    let mut sizes = Vec::new();
    for &word in &words {
        let state = random.machine_with(word);
        every_call(&mut comparison, &mut random, &state);
        sizes.push(form(&state, 2).len());
    }
    comparison.finish(CALLS * (2 + 64 + 100));
    assert_eq!(sizes[0], SMALLEST_SIZE, "none is present");
    assert_eq!(sizes[1], LARGEST_SIZE, "all are");
    let alone = sizes[2..66].iter().filter(|&&size| size == 277);
    assert_eq!(alone.count(), 32);
}

/// Registers of which one byte is not 0, at each place, by its lowest or its highest bit.
#[test]
fn registers_of_one_byte() {
    let mut random = random();
    let mut comparison = compared("registers of one byte");
    for at in 0..32 * REGISTER_SIZE {
        for byte in [0x01, 0x80] {
            let mut state = Machine::blank();
            state.vectors[at] = byte;
            for (call, held) in [
                (Call::SaveVersion(2), 1),
                (Call::Load, 2),
                (Call::Move(1), 2),
                (Call::Move(2), 1),
                (Call::MovedSize(2), 1),
            ] {
                let case = done(&mut random, call, held, &state);
                let number = comparison.case(&case).number;
                assert_eq!(number, done_number(call, &state));
            }
        }
    }
    comparison.finish(2048 * 2 * 5);
}

/// Each bit above 15 alone and with all below, in a control word to save and in a saved one.
#[test]
fn control_words_with_high_bits() {
    let mut random = random();
    for bit in 16..32 {
        for control in [1 << bit, 1 << bit | 0xFFFF, u32::MAX << bit] {
            for call in Call::ALL {
                for held in VERSIONS {
                    let mut state = random.sparse_machine();
                    state.control = control;
                    let case = done(&mut random, call, held, &state);
                    let number = match call {
                        Call::SavedSize(_) => done_number(call, &state),
                        Call::MovedSize(_) => 0,
                        _ => 2,
                    };
                    check_unchanged(&format!("control word {control:08X}"), &case, number);
                }
            }
        }
    }
}

/// Every control word of 16 bits is saved, moved and loaded.
#[test]
fn control_words_without_high_bits() {
    let mut machine = Machine::blank();
    machine.set_lane(3, 0, 0x3C00);
    let mut packed = vec![0; 277];
    let mut whole = vec![0; WHOLE_SIZE];
    for control in 0..=0xFFFF {
        machine.control = control;
        assert_eq!(library::save_version(2, &mut machine, &mut packed), 0);
        assert_eq!(library::move_saved(1, &mut packed, &mut whole), 0);
        for saved in [&mut packed, &mut whole] {
            machine.control = !control;
            assert_eq!(library::load(saved, &mut machine), 0);
            assert_eq!(machine.control, control);
        }
    }
}
