//! The outside evidence for Ridgecrook: an independent second program, the library through its
//! C interface, and what compares the two.

pub mod alike;
pub mod assemble;
pub mod case;
pub mod checked_command;
pub mod checked_replay;
pub mod command_input;
pub mod compare;
pub mod corners;
pub mod coverage;
pub mod differences;
pub mod faults;
pub mod kept;
pub mod library;
pub mod machine;
pub mod objdump;
pub mod own_file;
pub mod predicates;
pub mod processor;
pub mod program;
pub mod random;
pub mod random_recording;
pub mod random_step;
pub mod reading;
pub mod recorded;
pub mod recording;
pub mod rows;
pub mod saving;
pub mod second;
pub mod step_line;
pub mod transfer;
pub mod witness;
