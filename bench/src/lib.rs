//! What the benchmark times the library against, and the recordings that both replay.

pub mod plain;
mod plain_compare;
mod plain_double;
pub mod plain_replay;
pub mod plain_saved;
pub mod plain_step;
pub mod recorder;
