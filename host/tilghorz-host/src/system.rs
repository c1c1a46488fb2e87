//! What the command needs of the system and std does not have: signals, extended attributes, one sync for a file
//! system, and whether a process is there. All that is unsafe in this package is here.
//!
//! What makes each call sound: a name passes as a C string that lives through the call; a buffer passes as its own
//! pointer and length; a file passes as the descriptor that it owns. The system keeps no pointer. The declarations
//! are those of the C library on Linux; a set of signals and the description of a file system have more room here than
//! they need there.

#![allow(unsafe_code)]

use std::ffi::{CStr, CString, c_char, c_int, c_void};
use std::fs::File;
use std::io::{Error, ErrorKind, Result};
use std::os::fd::AsRawFd;

/// Room for a set of signals: 128 bytes.
#[repr(C)]
#[derive(Clone, Copy)]
struct SignalSet([u64; 16]);

/// Room for the description of a file system, which takes 120 bytes. Its kind stands first.
#[repr(C)]
struct FileSystem([i64; 32]);

unsafe extern "C" {
    fn signal(number: c_int, handler: usize) -> usize;
    fn sigemptyset(set: *mut SignalSet) -> c_int;
    fn sigaddset(set: *mut SignalSet, number: c_int) -> c_int;
    fn pthread_sigmask(how: c_int, set: *const SignalSet, old: *mut SignalSet) -> c_int;
    fn sigwait(set: *const SignalSet, number: *mut c_int) -> c_int;
    fn raise(number: c_int) -> c_int;
    fn kill(process: c_int, number: c_int) -> c_int;
    fn syncfs(file: c_int) -> c_int;
    fn fstatfs(file: c_int, out: *mut FileSystem) -> c_int;
    fn flistxattr(file: c_int, list: *mut c_char, length: usize) -> isize;
    fn fgetxattr(file: c_int, name: *const c_char, value: *mut c_void, length: usize) -> isize;
    fn fsetxattr(
        file: c_int,
        name: *const c_char,
        value: *const c_void,
        length: usize,
        flags: c_int,
    ) -> c_int;
    fn fremovexattr(file: c_int, name: *const c_char) -> c_int;
}

/// The signals that end the command, with their names.
const SIGNALS: [(c_int, &str); 3] = [(1, "SIGHUP"), (2, "SIGINT"), (15, "SIGTERM")];
/// The signal that asks for something without an end.
const ASKING: (c_int, &str) = (10, "SIGUSR1");
/// What a signal does of itself.
const DEFAULT: usize = 0;
/// A signal is ignored.
const IGNORED: usize = 1;
const BLOCK: c_int = 0;
const UNBLOCK: c_int = 1;

/// Signals that no thread gets but the one that waits for them.
#[derive(Clone, Copy)]
pub struct Held(SignalSet);

/// A signal that has come.
#[derive(Clone, Copy)]
pub struct Signal {
    number: c_int,
    /// Its name.
    pub name: &'static str,
}

impl Signal {
    /// Whether it asks for something. Else it ends the command.
    pub const fn is_asking(self) -> bool {
        self.number == ASKING.0
    }
}

impl Held {
    /// Holds back the signals that end the command, for this thread and those that it starts. One that is ignored, as
    /// under nohup, stays so.
    pub fn new() -> Self {
        Self::of(&SIGNALS)
    }

    /// Holds back SIGUSR1 too.
    pub fn with_asking() -> Self {
        Self::of(&[SIGNALS[0], SIGNALS[1], SIGNALS[2], ASKING])
    }

    /// Holds back these signals.
    fn of(signals: &[(c_int, &str)]) -> Self {
        let mut set = SignalSet([0; 16]);
        // SAFETY: the set is valid and has more room than a set of signals takes. `signal` gets a handler that is a
        // constant of the system.
        unsafe {
            sigemptyset(&mut set);
            for &(number, _) in signals {
                if signal(number, DEFAULT) == IGNORED {
                    signal(number, IGNORED);
                } else {
                    sigaddset(&mut set, number);
                }
            }
            pthread_sigmask(BLOCK, &set, std::ptr::null_mut());
        }
        Self(set)
    }

    /// Waits for one of them. An error means that none is held back.
    pub fn wait(&self) -> Option<Signal> {
        let mut number = 0;
        // SAFETY: both are valid, and live through the call.
        let answer = unsafe { sigwait(&self.0, &mut number) };
        let mut all = SIGNALS.into_iter().chain([ASKING]);
        let known = all.find(|(known, _)| *known == number);
        known
            .filter(|_| answer == 0)
            .map(|(number, name)| Signal { number, name })
    }

    /// Lets this thread get them again.
    pub fn release(&self) {
        // SAFETY: the set is valid.
        unsafe {
            pthread_sigmask(UNBLOCK, &self.0, std::ptr::null_mut());
        }
    }

    /// Ends the process by the signal, as if it had not been held back.
    pub fn end_by(&self, signal: Signal) -> ! {
        self.release();
        // SAFETY: the signal has its default action, which ends the process.
        unsafe {
            raise(signal.number);
        }
        std::process::exit(128 + signal.number)
    }
}

/// Whether there is a process of this number.
pub fn is_process(number: u32) -> bool {
    const NO_SUCH_PROCESS: i32 = 3;
    let Ok(number) = c_int::try_from(number) else {
        return false;
    };
    // SAFETY: the signal 0 is a question.
    let answer = unsafe { kill(number, 0) };
    answer == 0 || Error::last_os_error().raw_os_error() != Some(NO_SUCH_PROCESS)
}

/// Syncs the file system on which a file is.
pub fn sync_file_system(file: &File) -> Result<()> {
    // SAFETY: the descriptor is the file's own.
    done(unsafe { syncfs(file.as_raw_fd()) })
}

/// The number by which the system knows the kind of the file system on which a file is.
pub fn file_system_kind(file: &File) -> Result<i64> {
    let mut out = FileSystem([0; 32]);
    // SAFETY: the descriptor is the file's own; the room is more than what is written.
    done(unsafe { fstatfs(file.as_raw_fd(), &mut out) })?;
    Ok(out.0[0])
}

/// The names of a file's extended attributes. Where there can be none there is none.
pub fn attribute_names(file: &File) -> Result<Vec<CString>> {
    // SAFETY: the descriptor is the file's own, the buffer is given with its own length.
    let list = filled(|buffer| unsafe {
        flistxattr(file.as_raw_fd(), buffer.as_mut_ptr().cast(), buffer.len())
    });
    let list = match list {
        Err(error) if error.kind() == ErrorKind::Unsupported => return Ok(Vec::new()),
        list => list?,
    };
    let names = list.split_inclusive(|byte| *byte == 0);
    let name = |name| CStr::from_bytes_with_nul(name).map(CStr::to_owned);
    names.map(|each| name(each).map_err(Error::other)).collect()
}

/// The value of a file's extended attribute.
pub fn attribute(file: &File, name: &CStr) -> Result<Vec<u8>> {
    // SAFETY: the descriptor is the file's own, the name is a C string, the buffer is given with its own length.
    filled(|buffer| unsafe {
        fgetxattr(
            file.as_raw_fd(),
            name.as_ptr(),
            buffer.as_mut_ptr().cast(),
            buffer.len(),
        )
    })
}

/// Gives a file an extended attribute.
pub fn set_attribute(file: &File, name: &CStr, value: &[u8]) -> Result<()> {
    // SAFETY: the descriptor is the file's own, the name is a C string, the value is given with its own length.
    done(unsafe {
        fsetxattr(
            file.as_raw_fd(),
            name.as_ptr(),
            value.as_ptr().cast(),
            value.len(),
            0,
        )
    })
}

/// Takes an extended attribute from a file.
pub fn remove_attribute(file: &File, name: &CStr) -> Result<()> {
    // SAFETY: the descriptor is the file's own, the name is a C string.
    done(unsafe { fremovexattr(file.as_raw_fd(), name.as_ptr()) })
}

/// The answer of a call that gives 0 or sets the error.
fn done(answer: c_int) -> Result<()> {
    if answer == 0 {
        Ok(())
    } else {
        Err(Error::last_os_error())
    }
}

/// What a call writes that says, for an empty buffer, how much it would write. What grows meanwhile is asked for again.
fn filled(call: impl Fn(&mut [u8]) -> isize) -> Result<Vec<u8>> {
    const TOO_SHORT: i32 = 34;
    loop {
        let length = usize::try_from(call(&mut [])).map_err(|_| Error::last_os_error())?;
        let mut buffer = vec![0; length];
        if length == 0 {
            return Ok(buffer);
        }
        match usize::try_from(call(&mut buffer)) {
            Ok(length) => {
                buffer.truncate(length);
                return Ok(buffer);
            }
            Err(_) => {
                let error = Error::last_os_error();
                if error.raw_os_error() != Some(TOO_SHORT) {
                    return Err(error);
                }
            }
        }
    }
}

#[cfg(test)]
mod tests {
    use super::*;

    #[test]
    fn processes_are_there_or_not() {
        assert!(is_process(std::process::id()));
        assert!(is_process(1));
        assert!(!is_process(0x7FFF_FFFF));
        assert!(!is_process(u32::MAX));
        let mut ended = std::process::Command::new("true")
            .spawn()
            .expect("a process");
        ended.wait().expect("an end");
        assert!(!is_process(ended.id()));
    }
}
