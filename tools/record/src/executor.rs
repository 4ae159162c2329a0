//! What executes the instructions of a case: a processor, or what stands in for one.

use ridgecrook_tests::differences::stand_in;
use ridgecrook_tests::machine::{Step, StepOutcome};
use ridgecrook_tests::processor::{model, Processor};

type Run = dyn FnMut(&Step, usize) -> Option<StepOutcome>;

pub struct Executor {
    pub name: String,
    run: Box<Run>,
}

impl Executor {
    /// This machine's processor, or why it cannot. There is one a program.
    pub fn processor() -> Result<Executor, String> {
        let mut processor = Processor::here()?;
        Ok(Executor {
            name: model(),
            run: Box::new(move |step, length| processor.step(step, length)),
        })
    }

    /// What is expected of a processor, by the second program: for tests, and for recordings that
    /// are kept where no processor is at hand.
    pub fn stand_in() -> Executor {
        Executor {
            name: "the second program, in the place of a processor".to_string(),
            run: Box::new(|step, _| Some(stand_in(step))),
        }
    }

    /// Executes the instruction of a step, which has so many bytes; none where it cannot be placed.
    pub fn step(&mut self, step: &Step, length: usize) -> Option<StepOutcome> {
        (self.run)(step, length)
    }
}
