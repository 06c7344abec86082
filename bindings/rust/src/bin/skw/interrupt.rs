// Being asked to end: Ctrl-C, or a system that shuts down. The first asks, and the work ends at the next whole state; a second ends
// the command as if nobody had listened.

use std::ffi::c_int;
use std::sync::atomic::{AtomicU8, Ordering};

const DEFAULT: usize = 0;
const IGNORED: usize = 1;
/// Hang up, interrupt and terminate, with the numbers that they have everywhere.
const SIGNALS: [u8; 3] = [1, 2, 15];

/// The signal that came, or 0.
static CAME: AtomicU8 = AtomicU8::new(0);

extern "C" {
    /// The C standard library's, which this is linked with anyway; a handler is an address, or one of the two above.
    fn signal(number: c_int, handler: usize) -> usize;
}

extern "C" fn came(number: c_int) {
    CAME.store(number as u8, Ordering::Relaxed);
    // SAFETY: `signal` may be called while a signal is handled.
    unsafe { signal(number, DEFAULT) };
}

/// From here on the first signal only asks. One that whoever started this wants ignored stays so.
pub fn listen() {
    for number in SIGNALS {
        // SAFETY: `came` is a handler of the type that C asks for, and does nothing that is not allowed in one: a store and `signal`.
        unsafe {
            let handler: extern "C" fn(c_int) = came;
            if signal(number.into(), handler as usize) == IGNORED {
                signal(number.into(), IGNORED);
            }
        }
    }
}

/// The signal that asked to end.
pub fn asked() -> Option<u8> {
    match CAME.load(Ordering::Relaxed) {
        0 => None,
        number => Some(number),
    }
}
