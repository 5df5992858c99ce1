//! A fault inside the library ends the process; this prints the case in which it happened.

use std::cell::Cell;
use std::ffi::{c_int, c_void};

extern "C" {
    fn signal(number: c_int, handler: extern "C" fn(c_int)) -> *mut c_void;
    fn write(file: c_int, bytes: *const u8, length: usize) -> isize;
    fn _exit(status: c_int) -> !;
}

/// Abort, bus error, arithmetic fault, segment violation.
const FATAL: [c_int; 4] = [6, 7, 8, 11];
/// The exit status after such a signal.
pub const STATUS: c_int = 3;

thread_local! {
    static CASE: Cell<u64> = const { Cell::new(0) };
}

pub fn enter(case: u64) {
    CASE.set(case);
}

fn say(text: &[u8]) {
    // Sound: the slice is alive. Nothing but `write` is safe to use within a signal handler.
    unsafe { write(1, text.as_ptr(), text.len()) };
}

extern "C" fn last_words(_: c_int) {
    let mut digits = [b'0'; 20];
    let mut rest = CASE.get();
    for digit in digits.iter_mut().rev() {
        *digit = b'0' + (rest % 10) as u8;
        rest /= 10;
    }
    let first = digits.iter().position(|&digit| digit != b'0').unwrap_or(19);
    say(b"case ");
    say(&digits[first..]);
    say(b" ended the process: memory that is not lent was touched, or the library gave up\n0 passed, 1 failed\n");
    // Sound: `_exit` is meant for this place.
    unsafe { _exit(STATUS) }
}

pub fn watch() {
    for number in FATAL {
        // Sound: the handler calls nothing but `write` and `_exit`.
        unsafe { signal(number, last_words) };
    }
}
