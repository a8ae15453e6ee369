//! A line on a terminal while the library works for longer than a second.
//!
//! The call can't be asked how far it is, so the line has the time and the bytes lent.

use crate::show::grouped;
use std::io::{self, IsTerminal, Write};
use std::sync::atomic::{AtomicU64, Ordering};
use std::sync::mpsc::{self, Receiver, RecvTimeoutError};
use std::thread;
use std::time::{Duration, Instant};

const PAUSE: Duration = Duration::from_secs(1);
/// To the line's begin, and all of it wiped.
const WIPE: &str = "\r\x1b[K";

/// Does the work; `lent` says how many bytes are lent to it.
pub fn while_working<T>(lent: &AtomicU64, work: impl FnOnce() -> T) -> T {
    if !io::stderr().is_terminal() {
        return work();
    }
    let (done, waiting) = mpsc::channel();
    thread::scope(|scope| {
        scope.spawn(move || tell(lent, &waiting));
        let result = work();
        drop(done);
        result
    })
}

fn tell(lent: &AtomicU64, done: &Receiver<()>) {
    let begun = Instant::now();
    let mut told = false;
    while let Err(RecvTimeoutError::Timeout) = done.recv_timeout(PAUSE) {
        let (seconds, bytes) = (begun.elapsed().as_secs(), grouped(lent.load(Ordering::Relaxed)));
        write(&format!("{WIPE}still at it: {seconds} s, {bytes} bytes lent"));
        told = true;
    }
    if told {
        write(WIPE);
    }
}

/// A message that can't be written is nobody's loss.
fn write(text: &str) {
    let mut errors = io::stderr();
    let _ = errors.write_all(text.as_bytes()).and_then(|()| errors.flush());
}
