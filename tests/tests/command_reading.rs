//! How the command reads its standard input (R10.7): only input that was read to its end is run; if
//! a read fails, one line on standard error says so.

use ridgecrook_tests::command_input::{input, ADD};
use ridgecrook_tests::machine::Machine;
use ridgecrook_tests::program::RUN;
use ridgecrook_tests::reading::Reading;
use ridgecrook_tests::second::command::output;

/// Two sums and some memory.
fn good_input() -> Reading {
    let bytes = input(&Machine::blank(), &[ADD, ADD].concat(), &[7; 5]);
    let text = output(&bytes);
    assert!(text.ends_with("stop 12\n"));
    Reading::of(&RUN, bytes, text)
}

#[test]
fn reads_that_would_wait() {
    good_input().reads_that_would_wait();
}

#[test]
fn an_end_without_waiting() {
    good_input().an_end_without_waiting();
}

#[test]
fn a_connection_that_is_reset() {
    good_input().a_connection_that_is_reset();
}

#[test]
fn a_folder() {
    good_input().a_folder();
}

#[test]
fn slow_input() {
    good_input().slow_input();
}
