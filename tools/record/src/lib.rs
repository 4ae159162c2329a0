//! A run on a processor, written down as a recording (docs/RULES.md, R14.1): the code of a case,
//! one instruction an item.

mod executor;
mod file;
mod places;

pub use executor::Executor;
pub use file::{of_file, Failure, Written};
pub use places::{places, Place, Stop};

use case::state::Input;
use ridgecrook_tests::recording::{Recorder, Recording};

/// What was written, and the offset and the answer of an instruction that was refused, if one was:
/// it is the last item then.
pub struct Run {
    pub recording: Recording,
    pub refused: Option<(usize, u32)>,
}

/// Executes a case up to its end, or to the first instruction that is refused. An item has the
/// case's memory if its instruction has an operand there, and else none.
pub fn record(input: &Input, places: &[Place], executor: &mut Executor) -> Result<Run, Stop> {
    let mut recorder = Recorder::of(input.version as u32, input.state.machine());
    let mut refused = None;
    for &place in places {
        let Place { offset, length, .. } = place;
        let memory = match place.in_memory {
            true => &input.memory[..],
            false => &[],
        };
        let step = recorder.next(&input.code[offset..offset + length], memory);
        let outcome = executor.step(&step, length).ok_or_else(|| {
            let why = "its address cannot be placed on this machine".to_string();
            Stop { offset, why }
        })?;
        let number = recorder.add(outcome);
        if number != 0 {
            refused = Some((offset, number));
            break;
        }
    }
    Ok(Run {
        recording: recorder.recording,
        refused,
    })
}
