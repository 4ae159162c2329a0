//! What the runner asks of Linux: pages, the base of GS, and signals. The declarations are those of
//! glibc for x86-64.

use std::arch::global_asm;
use std::ffi::c_void;
use std::ptr::{addr_of, addr_of_mut, null_mut};
use std::sync::atomic::{AtomicBool, Ordering};

global_asm!(include_str!("run.s"), options(raw));

/// Laid out as run.s has it.
#[repr(C, align(64))]
#[derive(Clone)]
pub struct Frame {
    pub vectors: [u8; 2048],
    pub masks: [u64; 8],
    pub general: [u64; 16],
    pub control: u32,
    pub host_control: u32,
    pub host_stack: u64,
}

extern "C" {
    fn witness_run(frame: *mut Frame, entry: *const u8);
    fn witness_back();

    fn mmap(at: *mut c_void, size: usize, may: i32, kind: i32, file: i32, from: i64) -> *mut u8;
    fn sigaltstack(new: *const Stack, old: *mut Stack) -> i32;
    fn sigaction(signal: i32, new: *const Action, old: *mut Action) -> i32;
    fn syscall(number: i64, first: i64, second: u64) -> i64;
}

#[repr(C)]
struct Stack {
    start: *mut u8,
    flags: i32,
    size: usize,
}

#[repr(C)]
struct Action {
    handler: usize,
    mask: [u64; 16],
    flags: i32,
    restorer: usize,
}

pub const PAGE: usize = 4096;

pub const ILLEGAL: i32 = 4;
const BUS: i32 = 7;
pub const NUMERIC: i32 = 8;
const SEGMENT: i32 = 11;

const READ_WRITE: i32 = 3;
const READ_WRITE_EXECUTE: i32 = 7;
const PRIVATE_ANONYMOUS: i32 = 0x22;
const FIXED: i32 = 0x10;
const LOW: i32 = 0x40;
const NO_RESERVE: i32 = 0x4000;

/// Pages, or that Linux refuses them.
fn map(at: *mut u8, size: usize, may: i32, kind: i32) -> Result<*mut u8, String> {
    // Safety: new pages, or pages of a reservation of this module.
    let start = unsafe { mmap(at.cast(), size, may, PRIVATE_ANONYMOUS | kind, -1, 0) };
    match start as isize {
        -1 => Err(format!(
            "Linux refuses {size} bytes of memory: {}",
            std::io::Error::last_os_error()
        )),
        _ => Ok(start),
    }
}

/// Two to the 33 on either side: more than any 32-bit displacement reaches.
const GUARD: usize = 1 << 33;

/// A page that can be written, and nothing but pages that cannot be read for a long way around.
pub fn guarded_page() -> Result<*mut u8, String> {
    let start = map(null_mut(), 2 * GUARD, 0, NO_RESERVE)?;
    let middle = start.wrapping_add(GUARD);
    map(middle, PAGE, READ_WRITE, FIXED)
}

/// A page for code, below 2 to the 31, so that the page above is always far from it.
pub fn code_page() -> Result<*mut u8, String> {
    map(null_mut(), PAGE, READ_WRITE_EXECUTE, LOW)
}

/// Where the code goes on after the instruction.
pub fn back() -> u64 {
    witness_back as *const () as u64
}

/// GS is free in 64-bit programs. False where Linux refuses the base: it takes those of a program.
pub fn set_gs_base(base: u64) -> bool {
    const ARCH_PRCTL: i64 = 158;
    const SET_GS: i64 = 0x1001;
    // Safety: nothing else in the program uses GS.
    unsafe { syscall(ARCH_PRCTL, SET_GS, base) == 0 }
}

/// What the handler is told and tells. One instruction runs at a time (`claim`).
static mut ENTRY: u64 = 0;
static mut CAUGHT: Option<Caught> = None;

/// A signal at the instruction.
#[derive(Clone, Copy, Debug)]
pub struct Caught {
    pub signal: i32,
    /// The control word in the state that Linux saved.
    pub control: u32,
}

/// Places in glibc's `ucontext_t`: the instruction pointer among the registers, and the pointer to
/// the saved floating-point state, which begins as FXSAVE's, with the control word at 24.
const SAVED_POINTER: usize = 40 + 16 * 8;
const SAVED_STATE: usize = 40 + 23 * 8;
const SAVED_CONTROL: usize = 24;

/// Goes on at `witness_back`, where the instruction under trial was to blame. Otherwise the signal
/// is the program's own, and kills it as if there were no handler.
extern "C" fn caught(signal: i32, _: *mut c_void, context: *mut u8) {
    // Safety: the places of `ucontext_t`, and statics that nothing touches while `run` runs.
    unsafe {
        let pointer = context.add(SAVED_POINTER).cast::<u64>();
        if *pointer != ENTRY {
            act(signal, 0, 0);
            return;
        }
        let state = *context.add(SAVED_STATE).cast::<*const u8>();
        CAUGHT = Some(Caught {
            signal,
            control: *state.add(SAVED_CONTROL).cast::<u32>(),
        });
        *pointer = back();
    }
}

fn act(signal: i32, handler: usize, flags: i32) {
    let action = Action {
        handler,
        mask: [0; 16],
        flags,
        restorer: 0,
    };
    // Safety: the struct is glibc's.
    let done = unsafe { sigaction(signal, &action, null_mut()) };
    assert_eq!(done, 0, "sigaction of {signal}");
}

static CLAIMED: AtomicBool = AtomicBool::new(false);

/// Takes the signals and their stack for the thread that calls, once in a program.
pub fn claim() -> Result<(), String> {
    assert!(
        !CLAIMED.swap(true, Ordering::SeqCst),
        "one runner a program"
    );
    const SIZE: usize = 1 << 18;
    let stack = Stack {
        start: map(null_mut(), SIZE, READ_WRITE, 0)?,
        flags: 0,
        size: SIZE,
    };
    // Safety: the struct is glibc's, and the pages are never given back.
    assert_eq!(unsafe { sigaltstack(&stack, null_mut()) }, 0, "sigaltstack");
    // SA_SIGINFO and SA_ONSTACK.
    let flags = 4 | 0x0800_0000;
    for signal in [ILLEGAL, BUS, NUMERIC, SEGMENT] {
        act(signal, caught as *const () as usize, flags);
    }
    Ok(())
}

/// Runs what stands at `entry` from the frame and leaves in it what comes out.
pub fn run(frame: &mut Frame, entry: *const u8) -> Option<Caught> {
    // Safety: `claim` lets one thread come here; `entry` holds an instruction of the list, which
    // writes a vector or a mask register and flags alone, and a jump to `witness_back`, which
    // stores them.
    unsafe {
        addr_of_mut!(ENTRY).write(entry as u64);
        addr_of_mut!(CAUGHT).write(None);
        witness_run(frame, entry);
        addr_of_mut!(ENTRY).write(0);
        addr_of!(CAUGHT).read_volatile()
    }
}
