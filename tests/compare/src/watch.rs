//! Names the file at hand when the library crashes or does not come back, for
//! such a call gives no answer that could be compared.

use std::fmt::{self, Write};
use std::sync::atomic::{AtomicU64, Ordering};

pub const MOST_THREADS: usize = 64;

/// What a place starts with; each place of the list gets its own.
#[allow(clippy::declare_interior_mutable_const)]
const NO_FILE: AtomicU64 = AtomicU64::new(0);

/// The numbers of the files now compared, 0 for none: one place per thread.
/// Statics, because a signal handler can reach nothing else.
static AT_HAND: [AtomicU64; MOST_THREADS] = [NO_FILE; MOST_THREADS];
static SEED: AtomicU64 = AtomicU64::new(0);

extern "C" {
    fn signal(number: i32, handler: extern "C" fn(i32)) -> usize;
    fn write(descriptor: i32, bytes: *const u8, length: usize) -> isize;
    fn _exit(status: i32) -> !;
}

/// SIGILL, SIGABRT, SIGBUS, SIGFPE and SIGSEGV of Linux.
const CRASHES: [i32; 5] = [4, 6, 7, 8, 11];

/// From here on a crash of the library prints the files at hand.
pub fn start(seed: u64) {
    SEED.store(seed, Ordering::SeqCst);
    for number in CRASHES {
        // SAFETY: the handler allocates nothing and ends the program.
        unsafe { signal(number, crashed) };
    }
}

pub fn at_hand(thread: usize, file: u64) {
    AT_HAND[thread].store(file, Ordering::SeqCst);
}

extern "C" fn crashed(number: i32) {
    end(format_args!("crash (signal {number})"));
}

/// Prints what went wrong and the files at hand, and ends with status 1.
pub fn end(what: fmt::Arguments) -> ! {
    let mut line = Line {
        bytes: [0; 600],
        length: 0,
    };
    let _ = write!(line, "difference: {what} at one of the files");
    for file in AT_HAND
        .iter()
        .map(|file| file.load(Ordering::SeqCst))
        .filter(|&file| file != 0)
    {
        let _ = write!(line, " {file}");
    }
    let _ = writeln!(
        line,
        "; see --seed {} --only FILE",
        SEED.load(Ordering::SeqCst)
    );
    // SAFETY: the bytes written are within the line; nothing runs after the end.
    unsafe {
        write(1, line.bytes.as_ptr(), line.length);
        _exit(1)
    }
}

/// A line of fixed size: a signal handler must not allocate.
struct Line {
    bytes: [u8; 600],
    length: usize,
}

impl Write for Line {
    fn write_str(&mut self, text: &str) -> fmt::Result {
        let room = self.bytes.len() - self.length;
        let taken = text.len().min(room);
        self.bytes[self.length..self.length + taken].copy_from_slice(&text.as_bytes()[..taken]);
        self.length += taken;
        Ok(())
    }
}
