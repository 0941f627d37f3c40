//! What the standard library lacks: a stream by its number, whether it was closed or is a terminal, a file's owner, and the
//! removal of an unfinished file when the program is ended. The program's only unsafe code, since these are calls of C.
#![allow(unsafe_code)]

use std::ffi::CString;
use std::fs::File;
use std::io::{self, ErrorKind};
use std::mem::ManuallyDrop;
use std::os::raw::{c_char, c_int};
use std::os::unix::ffi::OsStrExt;
use std::os::unix::io::{AsRawFd, FromRawFd};
use std::path::Path;
use std::ptr;
use std::sync::atomic::{AtomicBool, AtomicPtr, Ordering::SeqCst};

mod c {
    use std::os::raw::{c_char, c_int};

    pub const F_GETFD: c_int = 1;
    pub const SIG_DFL: usize = 0;
    pub const SIG_IGN: usize = 1;

    extern "C" {
        pub fn fchown(number: c_int, owner: u32, group: u32) -> c_int;
        pub fn fcntl(number: c_int, command: c_int, ...) -> c_int;
        pub fn isatty(number: c_int) -> c_int;
        pub fn raise(signal: c_int) -> c_int;
        pub fn signal(signal: c_int, handler: usize) -> usize;
        pub fn unlink(path: *const c_char) -> c_int;
    }
}

// Streams 0, 1 and 2 that were closed at the start; before `main` Rust puts /dev/null in their place.
static CLOSED: [AtomicBool; 3] = [AtomicBool::new(false), AtomicBool::new(false), AtomicBool::new(false)];

// Called by the loader, so before Rust's own start.
#[used]
#[link_section = ".init_array"]
static BEFORE_MAIN: extern "C" fn() = note_closed;

extern "C" fn note_closed() {
    for (number, closed) in (0..).zip(&CLOSED) {
        // SAFETY: the call asks about a number, whatever it is, and changes nothing.
        closed.store(unsafe { c::fcntl(number, c::F_GETFD) } == -1, SeqCst);
    }
}

/// A stream that the program was started with, by its number. Unlike Rust's own ones it fails where it is closed.
pub fn stream(number: i32) -> io::Result<File> {
    let closed = usize::try_from(number).ok().map_or(true, |at| CLOSED.get(at).map_or(false, |was| was.load(SeqCst)));
    if closed {
        return Err(io::Error::new(ErrorKind::Other, "it is closed"));
    }
    // SAFETY: the number is only copied, which fails where nothing is open; what is open under it is not closed here.
    let borrowed = ManuallyDrop::new(unsafe { File::from_raw_fd(number) });
    borrowed.try_clone()
}

/// Whether a stream that the program was started with is a terminal: standard output is 1, standard error 2.
pub fn is_terminal(number: i32) -> bool {
    // SAFETY: the call asks about a number and changes nothing.
    unsafe { c::isatty(number) == 1 }
}

/// Gives a file to an owner and a group, so far as the user may: all of it, the group alone, or nothing.
pub fn give(file: &File, owner: u32, group: u32) {
    const AS_IT_IS: u32 = u32::MAX;
    // SAFETY: the number is of an open file, and the calls change nothing of this program.
    unsafe {
        if c::fchown(file.as_raw_fd(), owner, group) != 0 {
            c::fchown(file.as_raw_fd(), AS_IT_IS, group);
        }
    }
}

// The file to remove if the program is ended, or null.
static UNFINISHED: AtomicPtr<c_char> = AtomicPtr::new(ptr::null_mut());

// Hang-up, interrupt, termination, and a file past its limit.
const ENDS: [c_int; 4] = [1, 2, 15, 25];

/// From now on the file is removed if a signal ends the program.
pub fn unfinished(path: &Path) -> io::Result<()> {
    // Never freed: the handler may come while it reads the name.
    UNFINISHED.store(CString::new(path.as_os_str().as_bytes())?.into_raw(), SeqCst);
    let handler: extern "C" fn(c_int) = ended;
    for signal in ENDS {
        // SAFETY: the handler does nothing that a handler may not.
        unsafe {
            // A signal that the program's starter had ignored stays so.
            if c::signal(signal, handler as usize) == c::SIG_IGN {
                c::signal(signal, c::SIG_IGN);
            }
        }
    }
    Ok(())
}

/// From now on no file is removed: it is whole and has its name, or is removed already.
pub fn finished() {
    UNFINISHED.store(ptr::null_mut(), SeqCst);
}

// Removes the file and lets the signal end the program, as it would have without a handler.
extern "C" fn ended(signal: c_int) {
    let name = UNFINISHED.swap(ptr::null_mut(), SeqCst);
    // SAFETY: the three calls are allowed in a handler; the name is null or a text of C that is never freed.
    unsafe {
        if !name.is_null() {
            c::unlink(name);
        }
        c::signal(signal, c::SIG_DFL);
        c::raise(signal);
    }
}
