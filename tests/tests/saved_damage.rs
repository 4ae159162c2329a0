//! Damaged saved forms of both versions (R9.5, R9.10): each byte of the head, each size, words that
//! do not fit the registers, registers that are marked as present and are all zero. Loads, moves
//! and the sizes of moves, by library and second program.

use ridgecrook_tests::compare::Comparison;
use ridgecrook_tests::machine::REGISTER_SIZE;
use ridgecrook_tests::random::Random;
use ridgecrook_tests::saving::{check_unchanged, compared, done, random, set_length, sizes, LARGE};
use ridgecrook_tests::second::saved::{form, FILE_AT, SMALLEST_SIZE, VERSIONS};
use ridgecrook_tests::transfer::{Call, Transfer};

/// What reads a saved form.
const READERS: [Call; 5] = [
    Call::Load,
    Call::Move(1),
    Call::Move(2),
    Call::MovedSize(1),
    Call::MovedSize(2),
];

/// Present registers, four in each byte of the word.
const WORD: u32 = 0x0F3C_55D1;

/// How the readers answer, each to its own damaged form: for each number how often. Sizes are
/// compared, not counted.
#[derive(Default)]
struct Answers([u64; 11]);

impl Answers {
    fn read(
        &mut self,
        comparison: &mut Comparison<Transfer>,
        random: &mut Random,
        (held, word): (u32, u32),
        damage: impl Fn(&mut Vec<u8>),
    ) {
        for call in READERS {
            let state = random.machine_with(word);
            let mut transfer = done(random, call, held, &state);
            damage(&mut transfer.bytes);
            let number = comparison.case(&transfer).number;
            if !call.asks_size() {
                self.0[number as usize] += 1;
            }
        }
    }
}

/// Each byte of the length field, of the version and of the control word at every value.
#[test]
fn every_byte_of_the_head() {
    let mut random = random();
    let mut comparison = compared("bytes of the head");
    for held in VERSIONS {
        let mut answers = Answers::default();
        for place in 0..9 {
            for value in 0..=255 {
                let damage = |bytes: &mut Vec<u8>| bytes[place] = value;
                answers.read(&mut comparison, &mut random, (held, WORD), damage);
            }
        }
        let Answers(answers) = answers;
        assert_eq!(answers[10], 3 * 5 * 255, "each byte has one right value");
        assert_eq!(
            answers[2],
            3 * 2 * 255,
            "two high bytes of the control word"
        );
        assert_eq!(answers[0], 3 * (5 + 2 + 2 * 256));
    }
    comparison.finish(2 * 5 * 9 * 256);
}

/// Each byte of the word at every value: the registers have room for any four.
#[test]
fn every_byte_of_the_word() {
    let mut random = random();
    let mut comparison = compared("bytes of the word");
    let mut answers = Answers::default();
    for place in FILE_AT..FILE_AT + 4 {
        for value in 0..=255 {
            let damage = |bytes: &mut Vec<u8>| bytes[place] = value;
            answers.read(&mut comparison, &mut random, (2, WORD), damage);
        }
    }
    comparison.finish(5 * 4 * 256);
    assert_eq!(answers.0[0], 3 * 4 * 70, "four bits of eight");
    assert_eq!(answers.0[10], 3 * 4 * (256 - 70));
}

/// Of a form that is cut or made longer, with the length field that it had and with its own: one
/// size is right.
#[test]
fn every_size_of_a_form() {
    let mut random = random();
    let mut comparison = compared("sizes of saved forms");
    for held in VERSIONS {
        for has_own_length in [false, true] {
            let mut answers = Answers::default();
            for size in sizes() {
                let damage = |bytes: &mut Vec<u8>| {
                    bytes.resize(size, 0xA5);
                    if has_own_length && size >= 4 {
                        set_length(bytes, size as u32 - 4);
                    }
                };
                answers.read(&mut comparison, &mut random, (held, WORD), damage);
            }
            assert_eq!(answers.0[0], 3);
            assert_eq!(answers.0[10], 3 * (2300 + LARGE.len() as u64));
        }
    }
    comparison.finish(2 * 2 * 5 * (2301 + LARGE.len() as u64));
}

/// Length fields that an error may confuse with the right one: the total size, counts that begin
/// elsewhere, the other version's, its bytes in another order, and what is equal in 8 or 16 bits.
#[test]
fn near_length_fields() {
    let mut random = random();
    for held in VERSIONS {
        let state = random.machine_with(WORD);
        let right = form(&state, held).len() as u32 - 4;
        let other = form(&state, 3 - held).len() as u32 - 4;
        let shifted = [right << 8, right << 16, right | 1 << 16, right | 1 << 31];
        let fields = [
            right - 1,
            right + 1,
            right + 4,
            right - 4,
            right - 5,
            right + 64,
        ];
        let orders = [right.swap_bytes(), right & 0xFF, right >> 8, other, 2048];
        for field in fields.into_iter().chain(shifted).chain(orders) {
            for call in READERS {
                let mut transfer = done(&mut random, call, held, &state);
                set_length(&mut transfer.bytes, field);
                let number = if call.asks_size() { 0 } else { 10 };
                check_unchanged(&format!("length field {field}"), &transfer, number);
            }
        }
    }
}

/// So many registers that are marked, and so many that are there, with the length field of one or
/// the other: done exactly where both are as many.
#[test]
fn registers_marked_and_there() {
    let mut random = random();
    let mut comparison = compared("registers marked and there");
    let mut answers = Answers::default();
    for marked in 0..=32 {
        let word = (0..marked)
            .fold(0_u32, |word, _| word << 1 | 1)
            .rotate_right(7);
        for there in 0..=33 {
            for counted in [marked, there] {
                let damage = |bytes: &mut Vec<u8>| {
                    bytes.resize(SMALLEST_SIZE + REGISTER_SIZE * there, 0x3C);
                    let following = SMALLEST_SIZE - 4 + REGISTER_SIZE * counted;
                    set_length(bytes, following as u32);
                };
                answers.read(&mut comparison, &mut random, (2, word), damage);
            }
        }
    }
    comparison.finish(5 * 2 * 33 * 34);
    assert_eq!(answers.0[0], 3 * 2 * 33);
    assert_eq!(answers.0[10], 3 * 2 * 33 * 33);
}

/// A register that is marked as present and is all zero, each with others and alone: refused with
/// 10, also where 2 is called for. With any one bit it is read.
#[test]
fn registers_that_are_marked_and_empty() {
    let mut random = random();
    let mut comparison = compared("registers of a single bit where none was");
    for number in 0..32 {
        let marked = 1 << number;
        for word in [marked, u32::MAX, marked | random.bits() as u32] {
            let before = (word & (marked - 1)).count_ones() as usize;
            let at = SMALLEST_SIZE + REGISTER_SIZE * before;
            for call in READERS {
                let state = random.machine_with(word);
                let mut transfer = done(&mut random, call, 2, &state);
                transfer.bytes[at..at + REGISTER_SIZE].fill(0);
                let refused = if call.asks_size() { 0 } else { 10 };
                check_unchanged("an empty register", &transfer, refused);
                transfer.bytes[6] = 1;
                check_unchanged("and the control word", &transfer, refused);
                transfer.bytes[6] = 0;
                let place = random.within(0, 63) as usize;
                transfer.bytes[at + place] = 1 << random.within(0, 7);
                let number = comparison.case(&transfer).number;
                assert_eq!(number != 0, call.asks_size());
            }
        }
    }
    comparison.finish(32 * 3 * 5);
}
