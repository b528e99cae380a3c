//! What threads have in common: locks, workers, a heap, and a log.

use std::fmt::Display;
use std::io::{self, Write};
use std::sync::mpsc::{channel, sync_channel, Sender, SyncSender};
use std::sync::{Arc, Condvar, Mutex, MutexGuard, PoisonError};
use std::thread;
use std::time::{Duration, Instant};

/// Locks. A holder leaves no half-made state behind: a thread that panicked with one doesn't spoil it.
pub fn lock<T>(mutex: &Mutex<T>) -> MutexGuard<'_, T> {
    mutex.lock().unwrap_or_else(PoisonError::into_inner)
}

/// Waits until what is behind the lock has changed so that there is nothing to wait for, and so long at the most.
pub fn wait_for<'a, T>(
    guard: MutexGuard<'a, T>,
    changed: &Condvar,
    time: Duration,
    waits: impl FnMut(&mut T) -> bool,
) -> MutexGuard<'a, T> {
    changed.wait_timeout_while(guard, time, waits).unwrap_or_else(PoisonError::into_inner).0
}

/// Starts so many threads, each of which takes what is sent, one after the other, and does this with it.
pub fn workers<T: Send + 'static>(count: u32, work: impl Fn(T) + Clone + Send + 'static) -> io::Result<Sender<T>> {
    let (sender, receiver) = channel();
    let receiver = Arc::new(Mutex::new(receiver));
    for _ in 0..count {
        let (receiver, work) = (receiver.clone(), work.clone());
        thread::Builder::new().spawn(move || {
            // Without the lock while it works.
            let next = || lock(&receiver).recv();
            while let Ok(item) = next() {
                work(item);
            }
        })?;
    }
    Ok(sender)
}

/// Gives the system what is free of the heap, and has pieces from 128 KiB on stand apart, which it then has as soon as
/// they are freed. glibc keeps a heap for each few threads, with what was freed there, and takes ever greater pieces in.
pub fn give_memory_back() {
    #[cfg(target_env = "gnu")]
    {
        extern "C" {
            fn mallopt(parameter: i32, value: i32) -> i32;
            fn malloc_trim(kept: usize) -> i32;
        }
        const MMAP_THRESHOLD: i32 = -3;
        // SAFETY: they take numbers, and touch nothing that is in use.
        unsafe { (mallopt(MMAP_THRESHOLD, 128 << 10), malloc_trim(0)) };
    }
}

/// What the target says of its troubles. A thread of its own writes it: where standard error is a pipe that is full,
/// nobody else waits.
pub struct Log {
    lines: SyncSender<String>,
    last: Mutex<Option<Instant>>,
}

impl Log {
    pub fn new() -> io::Result<Log> {
        let (lines, said) = sync_channel::<String>(1);
        thread::Builder::new().spawn(move || {
            while let Ok(line) = said.recv() {
                // Where it can't be written, nobody wants to know.
                let _ = io::stderr().write_all(line.as_bytes());
            }
        })?;
        Ok(Log { lines, last: Mutex::new(None) })
    }

    /// Says a line, once a second at most, as whoever connects may bring lines about; and none while others wait.
    pub fn say(&self, words: impl Display) {
        let mut last = lock(&self.last);
        if last.is_none_or(|said| said.elapsed() >= Duration::from_secs(1)) {
            *last = Some(Instant::now());
            let _ = self.lines.try_send(format!("target: {words}\n"));
        }
    }
}
