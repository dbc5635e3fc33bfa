//! What the trials take from the C library since std does not have it: descriptors that do not block, signals and terminals.

use std::ffi::{c_char, c_int, CStr};
use std::fs::{File, OpenOptions};
use std::io::{Error, Result};
use std::os::fd::{AsRawFd, FromRawFd, OwnedFd};
use std::os::unix::fs::OpenOptionsExt;

extern "C" {
    fn fcntl(descriptor: c_int, command: c_int, ...) -> c_int;
    fn kill(process: c_int, signal: c_int) -> c_int;
    fn posix_openpt(flags: c_int) -> c_int;
    fn grantpt(descriptor: c_int) -> c_int;
    fn unlockpt(descriptor: c_int) -> c_int;
    fn ptsname_r(descriptor: c_int, name: *mut c_char, length: usize) -> c_int;
}

// As Linux has them.
const F_GETFL: c_int = 3;
const F_SETFL: c_int = 4;
const O_RDWR: c_int = 2;
const O_NOCTTY: c_int = 0o400;
const O_NONBLOCK: c_int = 0o4000;
const O_CLOEXEC: c_int = 0o2000000;
pub const SIGCONT: c_int = 18;
pub const SIGSTOP: c_int = 19;

/// The number of a call's answer, or the error that a negative one stands for.
fn answered(answer: c_int) -> Result<c_int> {
    if answer < 0 {
        Err(Error::last_os_error())
    } else {
        Ok(answer)
    }
}

/// Reads and writes of the descriptor, and of all that share its file, no longer wait.
pub fn set_nonblocking(descriptor: &impl AsRawFd) -> Result<()> {
    let descriptor = descriptor.as_raw_fd();
    let flags = answered(unsafe { fcntl(descriptor, F_GETFL) })?;
    answered(unsafe { fcntl(descriptor, F_SETFL, flags | O_NONBLOCK) })?;
    Ok(())
}

/// Sends a signal to a child whose end was not waited for.
pub fn send(child: u32, signal: c_int) -> Result<()> {
    answered(unsafe { kill(child as c_int, signal) })?;
    Ok(())
}

/// A new terminal: the end of whoever sits at it, and the end of programs.
pub fn terminal() -> Result<(OwnedFd, File)> {
    let descriptor = answered(unsafe { posix_openpt(O_RDWR | O_NOCTTY | O_CLOEXEC) })?;
    let outer = unsafe { OwnedFd::from_raw_fd(descriptor) };
    let mut name: [c_char; 64] = [0; 64];
    answered(unsafe { grantpt(descriptor) })?;
    answered(unsafe { unlockpt(descriptor) })?;
    // It answers with the error's number.
    match unsafe { ptsname_r(descriptor, name.as_mut_ptr(), name.len()) } {
        0 => {}
        number => return Err(Error::from_raw_os_error(number)),
    }
    let name = unsafe { CStr::from_ptr(name.as_ptr()) };
    let inner = OpenOptions::new()
        .read(true)
        .write(true)
        .custom_flags(O_NOCTTY)
        .open(name.to_string_lossy().as_ref())?;
    Ok((outer, inner))
}
