//! Standard output and standard error, and the exit status.

use crate::words::reason;
use std::ffi::c_int;
use std::io::{self, ErrorKind, Write};
use std::process::{exit, ExitCode};
use std::sync::atomic::{AtomicBool, Ordering};

/// How a command ended; the number is the exit status.
#[derive(Clone, Copy, PartialEq, Eq, PartialOrd, Ord, Debug)]
pub enum Status {
    /// Impossible, separated, accepted, opened, built, silenced, mended or converted.
    Yes = 0,
    /// No parity proof, none, or rejected.
    No = 1,
    /// Refused, or an error.
    Refused = 2,
}

impl From<Status> for ExitCode {
    fn from(status: Status) -> ExitCode {
        ExitCode::from(status as u8)
    }
}

static CLOSED: AtomicBool = AtomicBool::new(false);

extern "C" {
    fn fcntl(file: c_int, command: c_int, ...) -> c_int;
}

// The runtime puts /dev/null in the place of a closed standard output, so this looks before it does.
#[used]
#[link_section = ".init_array"]
static LOOK: extern "C" fn() = look;

extern "C" fn look() {
    const OUTPUT: c_int = 1;
    const GET_FLAGS: c_int = 1;
    // SAFETY: asks for a number's flags, which touches no memory.
    let flags = unsafe { fcntl(OUTPUT, GET_FLAGS) };
    CLOSED.store(flags == -1, Ordering::Relaxed);
}

/// Whether the tool was started without a standard output; every answer would vanish.
pub fn was_closed() -> bool {
    CLOSED.load(Ordering::Relaxed)
}

/// Writes to standard output.
pub fn say(words: &str) {
    say_bytes(words.as_bytes());
}

/// Writes bytes to standard output; an answer that could not be given must not end as a success.
pub fn say_bytes(bytes: &[u8]) {
    let mut out = io::stdout().lock();
    let Err(error) = out.write_all(bytes).and_then(|()| out.flush()) else {
        return;
    };
    // A reader that has seen enough, such as head, is no reason for a message.
    if error.kind() != ErrorKind::BrokenPipe {
        let reason = reason(&error);
        complain(&format!("cannot write to standard output: {reason}"));
    }
    exit(Status::Refused as i32);
}

/// Writes one message to standard error.
pub fn complain(words: &str) {
    // Nothing is left to tell it to where standard error itself is closed.
    let _ = writeln!(io::stderr(), "florumeja: {words}");
}
