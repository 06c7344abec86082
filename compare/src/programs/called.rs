// gridstep called as a function: compare/callable gives its entry, its read, its write and its lseek these names. What it reads and writes is kept by thread.

use std::cell::RefCell;
use std::slice;

extern "C" {
    fn gridstep_main() -> i32;
}

/// What a run of gridstep has still to read, and what it wrote.
#[derive(Default)]
struct Streams {
    input: Vec<u8>,
    read: usize,
    output: Vec<u8>,
}

thread_local! {
    static STREAMS: RefCell<Streams> = RefCell::default();
}

const STDIN: i32 = 0;
const STDOUT: i32 = 1;
/// What a system call answers that fails.
const FAILED: isize = -1;

/// As many bytes of the input as are left and there is room for.
#[no_mangle]
extern "C" fn gridstep_read(from: i32, room: *mut u8, length: usize) -> isize {
    if from != STDIN {
        return FAILED;
    }
    // SAFETY: gridstep lends a buffer of this length, as read(2) asks.
    let room = unsafe { slice::from_raw_parts_mut(room, length) };
    STREAMS.with_borrow_mut(|streams| {
        let left = &streams.input[streams.read..];
        let count = left.len().min(room.len());
        room[..count].copy_from_slice(&left[..count]);
        streams.read += count;
        count as isize
    })
}

#[no_mangle]
extern "C" fn gridstep_write(to: i32, bytes: *const u8, length: usize) -> isize {
    if to != STDOUT {
        return FAILED;
    }
    // SAFETY: gridstep lends bytes of this length, as write(2) asks.
    let bytes = unsafe { slice::from_raw_parts(bytes, length) };
    STREAMS.with_borrow_mut(|streams| streams.output.extend_from_slice(bytes));
    length as isize
}

/// What is read has no place to go back to, as of a pipe.
#[no_mangle]
extern "C" fn gridstep_lseek(_from: i32, _offset: i64, _whence: i32) -> i64 {
    -1
}

/// All that gridstep writes to its standard output, given this on its standard input.
pub fn gridstep(input: &[u8]) -> Result<Vec<u8>, String> {
    STREAMS.set(Streams { input: input.to_vec(), ..Streams::default() });
    // SAFETY: the program's entry takes nothing, and reads and writes only through the functions above.
    let status = unsafe { gridstep_main() };
    if status != 0 {
        return Err(format!("gridstep ended with {status}"));
    }
    Ok(STREAMS.take().output)
}
