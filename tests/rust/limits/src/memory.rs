//! The memory that the process takes, looked at every twentieth of a second: pages of its own, and each shared
//! block once. The kernel's resident set size counts such a block as often as it is mapped.

use std::sync::atomic::{AtomicU64, Ordering};
use std::sync::Arc;
use std::thread;
use std::time::Duration;

pub struct Watch(Arc<AtomicU64>);

/// In MB.
fn now() -> u64 {
    let told = std::fs::read_to_string("/proc/self/status").unwrap_or_default();
    let line = told.lines().find_map(|line| line.strip_prefix("RssAnon:"));
    let own = line.and_then(|rest| rest.trim().trim_end_matches(" kB").parse::<u64>().ok());
    own.expect("the kernel tells of the pages") / 1024 + sparse::shared_bytes() as u64 / 1_048_576
}

impl Watch {
    pub fn start() -> Watch {
        let most = Arc::new(AtomicU64::new(now()));
        let seen = Arc::clone(&most);
        thread::spawn(move || loop {
            seen.fetch_max(now(), Ordering::Relaxed);
            thread::sleep(Duration::from_millis(50));
        });
        Watch(most)
    }

    /// The most since it was last asked.
    pub fn most(&self) -> u64 {
        self.0.swap(now(), Ordering::Relaxed)
    }
}
