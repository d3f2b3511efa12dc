//! What is being done, in a line on standard error, where that is a terminal and the run takes longer than a second.

use std::io::{self, Write};
use std::sync::atomic::{AtomicU64, Ordering};
use std::sync::{Arc, Condvar, Mutex};
use std::thread::{self, JoinHandle};
use std::time::{Duration, Instant};

use crate::mask::masked;
use crate::report::screen::printable;
use crate::terminal;

/// How long a run says nothing, and how often the line is looked at then.
const SILENCE: Duration = Duration::from_secs(1);
const PAUSE: Duration = Duration::from_millis(250);

#[derive(Default)]
struct State {
    doing: String,
    /// What the terminal shows.
    shown: String,
    over: bool,
}

#[derive(Default)]
struct Watched {
    state: Mutex<State>,
    changed: Condvar,
    /// How many of a hundred parts of what is being done are done; none of them where that isn't known.
    percent: AtomicU64,
}

type Shared = Arc<Watched>;

/// Where it isn't known how much is done.
const UNKNOWN: u64 = u64::MAX;

/// A run's progress. Nothing is said once it is over.
pub struct Progress {
    shared: Shared,
    watcher: Option<JoinHandle<()>>,
}

impl Progress {
    /// Begins to watch, where standard error is a terminal.
    pub fn start() -> Progress {
        let shared = Shared::default();
        shared.percent.store(UNKNOWN, Ordering::Relaxed);
        let watcher = terminal::error_width().and_then(|width| {
            let shared = Arc::clone(&shared);
            let watch = move || watch(&shared, Instant::now() + SILENCE, width);
            thread::Builder::new().spawn(watch).ok()
        });
        Progress { shared, watcher }
    }

    /// Says what is being done from now on.
    pub fn now(&self, doing: impl Into<String>) {
        if self.watcher.is_some() {
            let mut state = lock(&self.shared.state);
            state.doing = doing.into();
            self.shared.percent.store(UNKNOWN, Ordering::Relaxed);
            self.shared.changed.notify_one();
        }
    }

    /// Says how much of it is done.
    pub fn done(&self, part: usize, whole: usize) {
        let percent = part as u64 * 100 / (whole as u64).max(1);
        self.shared.percent.store(percent, Ordering::Relaxed);
    }

    /// The end: the line is taken away.
    pub fn over(&self) {
        let mut state = lock(&self.shared.state);
        state.over = true;
        if !state.shown.is_empty() {
            state.shown.clear();
            show("");
        }
        self.shared.changed.notify_one();
    }
}

impl Drop for Progress {
    fn drop(&mut self) {
        self.over();
        if let Some(watcher) = self.watcher.take() {
            let _ = watcher.join();
        }
    }
}

fn lock(state: &Mutex<State>) -> std::sync::MutexGuard<'_, State> {
    state
        .lock()
        .unwrap_or_else(|poisoned| poisoned.into_inner())
}

/// Puts a text in the place of the line; an error there is of no matter.
fn show(text: &str) {
    let mut stream = io::stderr().lock();
    let _ = write!(stream, "\r\x1b[K{text}");
    let _ = stream.flush();
}

/// The line as it is to be now: `reading master.bin: 42 %`.
fn line_of(doing: &str, percent: u64) -> String {
    match percent {
        UNKNOWN => doing.to_string(),
        percent => format!("{doing}: {percent} %"),
    }
}

fn watch(shared: &Watched, start: Instant, width: usize) {
    let mut state = lock(&shared.state);
    while !state.over {
        let now = Instant::now();
        let line = line_of(&state.doing, shared.percent.load(Ordering::Relaxed));
        if now >= start && state.shown != line {
            let plain = printable(&line);
            let cut = masked(&plain);
            let cut: String = cut.chars().take(width.saturating_sub(1)).collect();
            show(&cut);
            state.shown = line;
        }
        let pause = if now < start { start - now } else { PAUSE };
        let waited = shared.changed.wait_timeout(state, pause);
        state = waited.unwrap_or_else(|poisoned| poisoned.into_inner()).0;
    }
}

#[cfg(test)]
mod tests {
    use super::*;

    #[test]
    fn lines_with_and_without_a_percentage() {
        assert_eq!(line_of("judging 7 records", UNKNOWN), "judging 7 records");
        assert_eq!(line_of("reading a", 42), "reading a: 42 %");
        let progress = Progress {
            shared: Shared::default(),
            watcher: None,
        };
        for (part, whole, percent) in [(0, 0, 0), (1, 3, 33), (3_355_443_000, 3_355_443_000, 100)] {
            progress.done(part, whole);
            assert_eq!(progress.shared.percent.load(Ordering::Relaxed), percent);
        }
    }
}
