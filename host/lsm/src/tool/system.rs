//! What the standard library doesn't have: a file mapped into memory, and a `close` that says whether it failed. Beside `signals`, the
//! one module of the tool with unsafe code.

use std::ffi::{c_int, c_void};
use std::fs::File;
use std::io;
use std::ops::Deref;
use std::os::fd::{AsRawFd, IntoRawFd};

extern "C" {
    fn mmap(at: *mut c_void, len: usize, protection: c_int, flags: c_int, fd: c_int, offset: i64) -> *mut c_void;
    fn munmap(at: *mut c_void, len: usize) -> c_int;
    fn close(fd: c_int) -> c_int;
}

const PROT_READ: c_int = 1;
const MAP_PRIVATE: c_int = 2;

/// The bytes of a file, mapped for reading.
///
/// A file that another program shortens meanwhile has no bytes behind its new end, and a disk may fail: reading there is a SIGBUS, which
/// `signals` turns into a message. That no other program overwrites the file meanwhile is the user's to see to: Rust takes the bytes behind a
/// slice to stay as they are, and so do the library's proofs.
pub struct Mapped {
    at: *const u8,
    len: usize,
}

impl Mapped {
    /// Maps a regular file of so many bytes. The file may be closed afterwards.
    pub fn new(file: &File, len: usize) -> io::Result<Mapped> {
        if len == 0 {
            // mmap takes no length of 0
            return Ok(Mapped { at: std::ptr::NonNull::dangling().as_ptr(), len });
        }
        // SAFETY: the system chooses a place that nothing else has, and the descriptor is open through the call.
        let at = unsafe { mmap(std::ptr::null_mut(), len, PROT_READ, MAP_PRIVATE, file.as_raw_fd(), 0) };
        if at as isize == -1 {
            return Err(io::Error::last_os_error());
        }
        Ok(Mapped { at: at as *const u8, len })
    }
}

impl Deref for Mapped {
    type Target = [u8];

    fn deref(&self) -> &[u8] {
        // SAFETY: `len` bytes are mapped at `at` until the drop, or there are none and `at` is not null. This program writes none of them.
        unsafe { std::slice::from_raw_parts(self.at, self.len) }
    }
}

impl Drop for Mapped {
    fn drop(&mut self) {
        if self.len > 0 {
            // SAFETY: this is what `new` mapped, and no slice of it outlives `self`.
            unsafe { munmap(self.at as *mut c_void, self.len) };
        }
    }
}

/// Closes a file, and says what only shows then, as the end of a quota on a file of another machine. `File` closes without a word.
pub fn close_checked(file: File) -> io::Result<()> {
    // SAFETY: the descriptor is the file's own, and nothing else closes it.
    match unsafe { close(file.into_raw_fd()) } {
        0 => Ok(()),
        _ => Err(io::Error::last_os_error()),
    }
}
