//! How a program reads its standard input: only input that was read to its end is looked at; if a
//! read fails, one line on standard error says so (R10.7, R14.10).

use crate::program::{Place, Program};
use std::fs::File;
use std::io::Write;
use std::os::fd::OwnedFd;
use std::os::unix::net::UnixStream;
use std::process::Stdio;
use std::thread;
use std::time::Duration;

/// What stands on standard output and on standard error.
type Printed = (String, String);

/// A program, an input and what is printed where that is read to its end.
pub struct Reading {
    program: Program,
    name: &'static str,
    input: Vec<u8>,
    output: String,
}

impl Reading {
    pub fn of(place: &Place, input: Vec<u8>, output: String) -> Reading {
        Reading {
            program: Program::found(place),
            name: place.name,
            input,
            output,
        }
    }

    fn printed(&self, stdin: impl Into<Stdio>) -> Printed {
        let (out, err) = self.program.printed(stdin);
        let text = |bytes| String::from_utf8(bytes).expect("text");
        (text(out), text(err))
    }

    /// The same with one end of a connection as standard input.
    fn printed_of(&self, socket: UnixStream) -> Printed {
        self.printed(OwnedFd::from(socket))
    }

    /// What is printed where a read fails.
    fn failed(&self) -> Printed {
        let line = format!("{}: standard input could not be read\n", self.name);
        (String::new(), line)
    }

    /// What is printed where all was read.
    fn ran(&self) -> Printed {
        (self.output.clone(), String::new())
    }

    /// A read that would have to wait fails. Input that is good so far is not run: more might come.
    pub fn reads_that_would_wait(&self) {
        let size = self.input.len();
        for length in [0, 1, size / 2, size - 5, size] {
            let (near, mut far) = without_waiting();
            far.write_all(&self.input[..length])
                .expect("room for the input");
            assert_eq!(self.printed_of(near), self.failed(), "{length} bytes came");
        }
    }

    /// Where the end is reached without waiting, all is as ever.
    pub fn an_end_without_waiting(&self) {
        let (near, mut far) = without_waiting();
        far.write_all(&self.input).expect("room for the input");
        drop(far);
        assert_eq!(self.printed_of(near), self.ran());
    }

    /// A connection that is reset fails one read, and the next says that the input has ended.
    pub fn a_connection_that_is_reset(&self) {
        let size = self.input.len();
        for length in [0, size / 2, size] {
            let (mut near, mut far) = UnixStream::pair().expect("a pair of sockets");
            // What the far end leaves unread makes its closing a reset.
            near.write_all(&[0]).expect("room for a byte");
            far.write_all(&self.input[..length])
                .expect("room for the input");
            drop(far);
            assert_eq!(self.printed_of(near), self.failed(), "{length} bytes came");
        }
    }

    pub fn a_folder(&self) {
        let folder = File::open(env!("CARGO_MANIFEST_DIR")).expect("a folder can be opened");
        assert_eq!(self.printed(folder), self.failed());
    }

    /// Reads that wait get everything, however slowly it comes.
    pub fn slow_input(&self) {
        let (near, mut far) = UnixStream::pair().expect("a pair of sockets");
        let input = self.input.clone();
        let writer = thread::spawn(move || {
            for piece in input.chunks(500) {
                thread::sleep(Duration::from_millis(40));
                far.write_all(piece).expect("the program reads");
            }
        });
        assert_eq!(self.printed_of(near), self.ran());
        writer.join().expect("all was written");
    }
}

/// Two ends of a connection; reads of the first do not wait.
fn without_waiting() -> (UnixStream, UnixStream) {
    let (near, far) = UnixStream::pair().expect("a pair of sockets");
    near.set_nonblocking(true).expect("reads that do not wait");
    (near, far)
}
