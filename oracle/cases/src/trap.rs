//! Says which case was under way when a read outside what is lent, a write to
//! what is lent to be read, or a panic of the published Rust, ends the run.

use std::{
    panic,
    sync::atomic::{AtomicU8, AtomicUsize, Ordering::Relaxed},
};

unsafe extern "C" {
    fn signal(number: i32, handler: extern "C" fn(i32)) -> usize;
    fn write(fd: i32, bytes: *const u8, len: usize) -> isize;
    fn _exit(status: i32) -> !;
}

/// SIGBUS and SIGSEGV as Linux numbers them.
const SIGNALS: [i32; 2] = [7, 11];

/// No line that replays a case is longer.
const LONGEST: usize = 1_024;

/// Atomics, since a handler may take no lock.
static LINE: [AtomicU8; LONGEST] = [const { AtomicU8::new(0) }; LONGEST];
static LEN: AtomicUsize = AtomicUsize::new(0);

/// Notes the line that replays the case about to be run.
pub fn under_way(replay: &str) {
    for (slot, byte) in LINE.iter().zip(replay.bytes()) {
        slot.store(byte, Relaxed);
    }
    LEN.store(replay.len().min(LINE.len()), Relaxed);
}

fn say(why: &str) {
    let mut line = [0; LONGEST];
    for (byte, slot) in line.iter_mut().zip(&LINE) {
        *byte = slot.load(Relaxed);
    }
    for part in [why.as_bytes(), &line[..LEN.load(Relaxed)], b"\n"] {
        // SAFETY: `part` is that many readable bytes. A failed write has nowhere to be told.
        unsafe { write(1, part.as_ptr(), part.len()) };
    }
}

extern "C" fn on_signal(_: i32) {
    say("a read outside the lent memory, or a write that is not allowed\n  replay: ");
    // SAFETY: ends the process.
    unsafe { _exit(1) }
}

pub fn set() {
    for number in SIGNALS {
        // SAFETY: the handler only reads atomics, writes and exits.
        unsafe { signal(number, on_signal) };
    }
    panic::set_hook(Box::new(|what| {
        println!("{what}");
        say("a panic\n  replay: ");
        std::process::exit(1);
    }));
}
