//! What refuses a save, a load or a move, and in which order (R9.4, R9.5, R9.10): each alone, any
//! several at once, every size of a target and of a vector file, versions that there are not, and
//! mixtures at random. All that is lent is as it was before.

use ridgecrook_tests::random::Random;
use ridgecrook_tests::saving::{
    check_unchanged, compare_mixtures, compared, done, random, sizes, states, versions_held, LARGE,
    NO_VERSIONS,
};
use ridgecrook_tests::second::saved::{size, FILE_AT, SMALLEST_SIZE, VERSIONS};
use ridgecrook_tests::transfer::{Call, Transfer};

/// Something that calls for a refusal.
struct Condition {
    name: &'static str,
    number: u32,
    spoil: fn(&mut Transfer),
}

const fn spoiled(name: &'static str, number: u32, spoil: fn(&mut Transfer)) -> Condition {
    Condition {
        name,
        number,
        spoil,
    }
}

const ASKED: Condition = spoiled("version asked for", 10, |asked| {
    asked.call = asked.call.asking(3);
});

/// The conditions of R9.4 behind that, in its order.
const OF_A_SAVE: [Condition; 3] = [
    spoiled("vector file", 1, |save| save.machine.vectors.push(0)),
    spoiled("target", 1, |save| {
        save.bytes.truncate(save.bytes.len() - 1)
    }),
    spoiled("control word", 2, |save| save.machine.control |= 1 << 16),
];

const LENT: Condition = spoiled("vector file", 1, |load| load.machine.vectors.truncate(2047));

/// What makes a form none, of either version and of version 2.
const OF_A_FORM: [Condition; 3] = [
    spoiled("total size", 10, |read| read.bytes.push(1)),
    spoiled("length field", 10, |read| read.bytes[3] ^= 4),
    spoiled("version", 10, |read| read.bytes[4] ^= 3),
];
const OF_A_PACKED_FORM: [Condition; 2] = [
    spoiled("word", 10, |read| read.bytes[FILE_AT + 3] ^= 0x10),
    spoiled("empty register", 10, |read| {
        read.bytes[SMALLEST_SIZE..SMALLEST_SIZE + 64].fill(0);
    }),
];

const CONTROL: Condition = spoiled("control word", 2, |read| read.bytes[5] = 0x80);

const TARGET: Condition = spoiled("target", 1, |moved| moved.target.push(0));

/// In their order, for a form of the version `held`.
fn conditions(call: Call, held: u32) -> Vec<&'static Condition> {
    let mut all = Vec::new();
    if call.asked().is_some() {
        all.push(&ASKED);
    }
    if !call.reads() {
        all.extend(&OF_A_SAVE);
        return all;
    }
    if call == Call::Load {
        all.push(&LENT);
    }
    all.extend(&OF_A_FORM);
    if held == 2 {
        all.extend(&OF_A_PACKED_FORM);
    }
    all.push(&CONTROL);
    if call != Call::Load {
        all.push(&TARGET);
    }
    all
}

/// A call that is done, with a state that has at least one register present.
fn good(random: &mut Random, call: Call, held: u32) -> Transfer {
    let word = random.bits() as u32 | 1 << random.within(0, 31);
    let state = random.machine_with(word);
    done(random, call, held, &state)
}

/// The calls that are refused by numbers, with the versions that they read.
fn refusing() -> impl Iterator<Item = (Call, u32)> {
    let calls = Call::ALL.into_iter().filter(|call| !call.asks_size());
    calls.flat_map(|call| versions_held(call).iter().map(move |&held| (call, held)))
}

/// Each refusal alone, and of any several at once the first: neighbours are among them.
#[test]
fn the_first_of_any_refusals_is_answered() {
    let mut random = random();
    let mut checked = 0;
    for (call, held) in refusing() {
        let all = conditions(call, held);
        for chosen in 1..1_u32 << all.len() {
            let is_chosen = |place: &usize| chosen >> place & 1 == 1;
            let places: Vec<usize> = (0..all.len()).filter(is_chosen).collect();
            let mut transfer = good(&mut random, call, held);
            for &place in &places {
                (all[place].spoil)(&mut transfer);
            }
            let names: Vec<&str> = places.iter().map(|&place| all[place].name).collect();
            check_unchanged(&names.join(", "), &transfer, all[places[0]].number);
            checked += 1;
        }
    }
    // Saves of 3 and 4 conditions, loads of 5 and 7, moves of 6 and 8.
    assert_eq!(checked, 7 + 2 * 15 + 31 + 127 + 2 * (63 + 255));
}

/// Alone and with everything else that may be wrong; a size is then 0.
#[test]
fn versions_that_there_are_not() {
    let mut random = random();
    let mut checked = 0;
    for call in Call::ALL.into_iter().filter(|call| call.asked().is_some()) {
        for (held, version) in VERSIONS
            .into_iter()
            .flat_map(|held| NO_VERSIONS.map(|v| (held, v)))
        {
            let number = if call.asks_size() { 0 } else { 10 };
            let mut transfer = good(&mut random, call, held);
            transfer.call = call.asking(version);
            check_unchanged("a version", &transfer, number);
            for condition in &conditions(call, held)[1..] {
                if !call.asks_size() || condition.name != "target" {
                    (condition.spoil)(&mut transfer);
                }
                check_unchanged("a version and more", &transfer, number);
            }
            checked += 1;
        }
    }
    assert_eq!(checked, 8 * 2 * 8);
}

/// Exactly one size of a target is right; all others are refused with 1.
#[test]
fn targets_of_every_size() {
    let mut random = random();
    let mut comparison = compared("sizes of targets");
    let writing = refusing().filter(|&(call, _)| call != Call::Load);
    let mut combinations = 0;
    for (call, held) in writing {
        let state = random.sparse_machine();
        let right = size(&state, call.asked().unwrap_or(1));
        for size in sizes() {
            let mut transfer = done(&mut random, call, held, &state);
            let target = if call.reads() {
                &mut transfer.target
            } else {
                &mut transfer.bytes
            };
            target.resize(size, 0xA5);
            let expected = u32::from(size != right);
            assert_eq!(comparison.case(&transfer).number, expected, "{call} {size}");
        }
        combinations += 1;
    }
    assert_eq!(combinations, 3 + 4);
    comparison.finish(7 * (2301 + LARGE.len() as u64));
}

/// Exactly one size of a vector file is right; all others are refused with 1.
#[test]
fn vector_files_of_every_size() {
    let mut random = random();
    let mut comparison = compared("sizes of vector files");
    let lent = [
        Call::Save,
        Call::SaveVersion(1),
        Call::SaveVersion(2),
        Call::Load,
    ];
    let sized = [Call::SavedSize(1), Call::SavedSize(2)];
    let mut refused = 0;
    for call in lent.into_iter().chain(sized) {
        for size in sizes() {
            let mut transfer = good(&mut random, call, 2);
            transfer.machine.vectors.resize(size, 0xA5);
            let number = comparison.case(&transfer).number;
            let is_refused = number == u32::from(!call.asks_size());
            assert_eq!(is_refused, size != 2048, "{call} {size}");
            refused += u64::from(is_refused);
        }
    }
    comparison.finish(6 * (2301 + LARGE.len() as u64));
    assert_eq!(refused, 6 * (2300 + LARGE.len() as u64));
}

#[test]
fn mixtures_agree() {
    let comparison = compared("mixtures of calls and refusals");
    compare_mixtures(comparison, &mut random(), 3 * states());
}
