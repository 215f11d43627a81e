//! What the tool does when it is stopped: a half-written output is removed, and a file that can't be read any more gets a message. A handler
//! may interrupt anything, so it calls only what POSIX allows in one: `unlink`, `write`, `signal`, `raise`, `strlen` and `_exit`.

use std::ffi::{c_char, c_int, CStr, CString};
use std::ptr::null_mut;
use std::sync::atomic::{AtomicPtr, Ordering::SeqCst};

extern "C" {
    fn signal(number: c_int, handler: usize) -> usize;
    fn raise(number: c_int) -> c_int;
    fn unlink(path: *const c_char) -> c_int;
    fn write(fd: c_int, from: *const u8, len: usize) -> isize;
    fn _exit(status: c_int) -> !;
}

const SIGHUP: c_int = 1;
const SIGINT: c_int = 2;
const SIGTERM: c_int = 15;
const SIGXFSZ: c_int = 25;
const SIGBUS: c_int = if cfg!(target_os = "linux") { 7 } else { 10 };

const BY_DEFAULT: usize = 0; // SIG_DFL
const IGNORED: usize = 1; // SIG_IGN

/// The output that is being written, or null.
static HALF_WRITTEN: AtomicPtr<c_char> = AtomicPtr::new(null_mut());
/// What to say where the mapped file can't be read, or null.
static UNREADABLE: AtomicPtr<c_char> = AtomicPtr::new(null_mut());

/// Names the output to remove where the tool is stopped.
pub fn remove_when_stopped(half_written: Option<CString>) {
    put(&HALF_WRITTEN, half_written);
}

/// Gives the message for a mapped file that can't be read any more.
pub fn say_when_unreadable(message: Option<CString>) {
    put(&UNREADABLE, message);
}

// The text before it is freed only when no handler can find it any more: there is one thread, and a handler doesn't go back to it.
fn put(slot: &AtomicPtr<c_char>, text: Option<CString>) {
    let before = slot.swap(text.map_or(null_mut(), CString::into_raw), SeqCst);
    if !before.is_null() {
        // SAFETY: every pointer in a slot comes from `into_raw`, and the swap took this one out.
        drop(unsafe { CString::from_raw(before) });
    }
}

/// Sets the handlers. A signal that whoever started the tool had ignored, as `nohup` does, stays ignored. A file above the limit of its
/// size becomes an error of `write`.
pub fn handle() {
    // SAFETY: the handlers have the signature that `signal` wants, and call only what may be called in one.
    unsafe {
        signal(SIGXFSZ, IGNORED);
        signal(SIGBUS, unreadable as *const () as usize);
        for number in [SIGHUP, SIGINT, SIGTERM] {
            if signal(number, stopped as *const () as usize) == IGNORED {
                signal(number, IGNORED);
            }
        }
    }
}

fn remove_half_written() {
    let path = HALF_WRITTEN.load(SeqCst);
    if !path.is_null() {
        // SAFETY: a pointer in the slot is a C string.
        unsafe { unlink(path) };
    }
}

// The signal again, with what it does by default: whoever waits for the tool sees that it was stopped.
extern "C" fn stopped(number: c_int) {
    remove_half_written();
    // SAFETY: both may be called in a handler. The raised signal waits until this one returns.
    unsafe {
        signal(number, BY_DEFAULT);
        raise(number);
    }
}

// Without a mapped file the fault is none of ours: it comes again, with what it does by default.
extern "C" fn unreadable(number: c_int) {
    remove_half_written();
    let message = UNREADABLE.load(SeqCst);
    // SAFETY: all three may be called in a handler, and a pointer in the slot is a C string.
    unsafe {
        if message.is_null() {
            signal(number, BY_DEFAULT);
            return;
        }
        let text = CStr::from_ptr(message).to_bytes();
        write(2, text.as_ptr(), text.len());
        _exit(2)
    }
}
