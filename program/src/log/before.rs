//! What the log has of an input that was given to a run which writes nothing.

use std::path::Path;

use crate::failure::shown;

#[derive(Debug, PartialEq, Eq)]
pub enum Before {
    /// No run took it, or none that may still be in the master.
    Never,
    /// The time of the run that took it.
    At(String),
    /// The log may not be read: which, and why.
    Unread(String),
}

impl Before {
    /// When it was taken, where that is known.
    pub fn time(&self) -> Option<&str> {
        match self {
            Before::At(time) => Some(time),
            _ => None,
        }
    }

    /// Why a run that writes would be stopped, in which the input is `applied` or `posted`; none where nothing is against it.
    pub fn against(&self, done: &str, master: &Path, again: bool) -> Option<String> {
        let master = shown(master);
        match self {
            Before::At(time) if !again => {
                Some(format!("it was {done} to {master} before, at {time}"))
            }
            Before::Unread(why) => Some(format!("{why}: it may have been {done} before")),
            _ => None,
        }
    }
}

#[cfg(test)]
mod tests {
    use super::*;

    #[test]
    fn what_is_against_a_run() {
        let master = Path::new("m.bin");
        let at = Before::At("2007-12-31T23:59:59Z".to_string());
        let words = "it was applied to m.bin before, at 2007-12-31T23:59:59Z";
        assert_eq!(at.against("applied", master, false).as_deref(), Some(words));
        assert_eq!(at.against("applied", master, true), None);
        assert_eq!(Before::Never.against("applied", master, false), None);
        // what can't be read is against it in any case
        let unread = Before::Unread("m.bin.log can't be read: permission denied".to_string());
        let words = "m.bin.log can't be read: permission denied: it may have been posted before";
        for again in [false, true] {
            let against = unread.against("posted", master, again);
            assert_eq!(against.as_deref(), Some(words));
        }
    }
}
