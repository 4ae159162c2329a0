//! What the recorder writes, with the second program in the place of a processor
//! (`tests/src/differences.rs`), by which it can be tried on every machine.

use case::state::{self, Input};
use record::{of_file, places, record, Executor, Failure, Run, Stop, Written};
use ridgecrook_tests::compare::{log, setting};
use ridgecrook_tests::differences::on_a_processor;
use ridgecrook_tests::kept::{self, Kept};
use ridgecrook_tests::library;
use ridgecrook_tests::machine::ALL_MASKED;
use ridgecrook_tests::random_step::Steps;
use ridgecrook_tests::recording::Recording;
use ridgecrook_tests::second;
use ridgecrook_tests::second::encoding::{decode, Second};
use ridgecrook_tests::second::replay::Report;
use ridgecrook_tests::second::saved::form;

fn recorded(input: &Input) -> Result<Run, Stop> {
    record(input, &places(input)?, &mut Executor::stand_in())
}

#[derive(Clone, Copy, PartialEq, Eq)]
enum Kind {
    Any,
    Registers,
    /// Registers with large powers of two, and OE unmasked.
    Overflows,
    /// Registers, with every exception masked.
    Masked,
}

const KINDS: [Kind; 4] = [Kind::Any, Kind::Registers, Kind::Overflows, Kind::Masked];

/// A case of random instructions, with addresses that can be placed.
fn random_case(steps: &mut Steps, kind: Kind, count: usize) -> Input {
    let (mut machine, memory) = steps.start();
    machine.pointer = steps.random.within(0, 600) as u64;
    machine
        .general
        .iter_mut()
        .for_each(|value| *value %= 1 << 28);
    match kind {
        Kind::Any | Kind::Registers => {}
        Kind::Overflows => {
            machine.control = 0x1B80;
            for lane in 0..32 * 32 {
                let half = steps.random.half() & 0xFC00 | 0x4000;
                machine.set_lane(lane / 32, lane % 32, half);
            }
        }
        Kind::Masked => machine.control |= ALL_MASKED,
    }
    let is_wanted = |code: &Vec<u8>| kind == Kind::Any || code[5] >> 6 == 3;
    let codes = std::iter::repeat_with(|| steps.code()).filter(is_wanted);
    let code = codes.take(count).collect::<Vec<_>>().concat();
    let version = 1 + u32::from(steps.random.once_in(2));
    let mut bytes = form(&machine, version);
    bytes.extend((code.len() as u16).to_be_bytes());
    bytes.extend(code);
    bytes.extend(memory);
    state::read(&bytes).expect("an input of the command")
}

/// Items follow the code, each with the memory that its instruction needs, and end with it or
/// with the first answer that is not 0.
fn check_items(input: &Input, recording: &Recording) {
    let mut offset = 0;
    for (number, item) in recording.items.iter().enumerate() {
        let instruction = decode(&input.code[offset..]).expect("an instruction");
        assert_eq!(item.code, input.code[offset..offset + instruction.length]);
        let memory = match instruction.second {
            Second::Memory { .. } => &input.memory[..],
            Second::Register(_) => &[],
        };
        assert_eq!(item.memory, memory);
        offset += instruction.length;
        let is_last = number + 1 == recording.items.len();
        assert_eq!(is_last, item.answer != 0 || offset == input.code.len());
    }
}

/// Random cases replay as the same, but where a processor is expected to do otherwise: that is the
/// last item then.
#[test]
fn random_cases() {
    let mut steps = Steps::seeded(setting("RIDGECROOK_SEED", 20_261_119));
    let (mut answers, mut differing, mut items) = ([0; 9], 0, 0);
    for number in 0..4000 {
        let input = random_case(&mut steps, KINDS[number % 4], number % 40 + 1);
        let run = recorded(&input).expect("a case that can be recorded");
        check_items(&input, &run.recording);
        let count = run.recording.items.len();
        let last = run.recording.items.last().expect("an item");
        assert_eq!(
            run.refused.map_or(0, |(_, answer)| answer),
            last.answer.into()
        );
        let bytes = run.recording.bytes();
        let report = library::replay(&mut bytes.clone()).report();
        let last_step = kept::steps(&bytes).pop().expect("a step");
        let known = on_a_processor(&last_step, &second::step(&last_step)).1;
        let due = match known {
            None => Report::Same(count as u64),
            Some(_) => Report::Differs(count as u64 - 1),
        };
        assert_eq!((report, second::replay::replay(&bytes)), (due, due));
        answers[usize::from(last.answer)] += 1;
        differing += usize::from(known.is_some());
        items += count;
    }
    log(&format!(
        "recorder: 4000 cases, {items} items; last answers {answers:?}; {differing} known to differ"
    ));
    assert!([0, 7, 8].iter().all(|&number| answers[number] > 100) && differing > 0);
}

/// The texts of kept cases have lines `asm`.
fn has_assembler() -> bool {
    let is_there = case::assembler::is_there();
    if !is_there {
        log("skipped: no as on this machine that knows the instructions");
    }
    is_there
}

fn of_kept(kept: &Kept) -> Written {
    let file = kept.file("txt");
    let file = file.to_str().expect("a plain name");
    of_file(file, || Ok(Executor::stand_in())).expect("a case that can be recorded")
}

/// Each kept case is what its text gives, by the second program in a processor's place; where a
/// processor is here, `processor.rs` asks it.
#[test]
fn kept_cases_are_those_of_their_texts() {
    if !has_assembler() {
        return;
    }
    for kept in kept::cases() {
        assert_eq!(of_kept(&kept).bytes, kept.bytes(), "{}", kept.name);
    }
}

/// What is said beside a recording.
#[test]
fn notes() {
    if !has_assembler() {
        return;
    }
    for (name, expected) in [
        ("one", &["1 item, 2340 bytes, by NAME"][..]),
        ("empty", &["0 items, 277 bytes, by NAME"]),
        (
            "outside",
            &[
                "2 items, 635 bytes, by NAME",
                "offset 6 was answered 7, a byte that is needed lies outside memory, \
                 and is the last item",
            ],
        ),
        (
            "dot",
            &[
                "21 items, 67506 bytes, by NAME",
                "target/bin/replay takes 65536 bytes; \
                 `case replay` and ridgecrook_replay take more",
            ],
        ),
    ] {
        let cases = kept::cases();
        let kept = cases.iter().find(|kept| kept.name == name).expect(name);
        let front = format!("{}: ", kept.file("txt").display());
        let by = Executor::stand_in().name;
        let expected = expected
            .iter()
            .map(|note| front.clone() + &note.replace("NAME", &by));
        assert_eq!(of_kept(kept).notes, expected.collect::<Vec<_>>());
    }
}

/// The executor is asked for only where the case is good.
#[test]
fn a_bad_case_needs_no_executor() {
    let file = std::path::Path::new(env!("CARGO_TARGET_TMPDIR")).join("bad-case.txt");
    for (text, asked) in [("code C3\n", false), ("code\n", false), ("rax 1\n", true)] {
        std::fs::write(&file, text).expect("a file can be written");
        let mut was_asked = false;
        let failure = of_file(file.to_str().expect("a plain name"), || {
            was_asked = true;
            Err("not here".to_string())
        });
        let failure = failure.expect_err("there is no executor");
        let is_processor = failure == Failure::Processor("not here".to_string());
        assert_eq!((was_asked, is_processor), (asked, asked), "{text}");
    }
}
