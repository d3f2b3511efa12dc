//! The runs of a log, and which of them the master has in it.

use std::fs;
use std::io;
use std::path::Path;

use crate::failure::{shown, words, Failure};
use crate::log::line::Run;
use crate::log::take_backs::TakeBacks;

/// The command whose runs take others back.
pub const TAKE_BACK: &str = "take-back";

/// What became of a run.
#[derive(Clone, Copy, Debug, PartialEq, Eq)]
pub enum Outcome {
    CarriedOut,
    /// It was, and is not in the master any more: the run behind it took it back.
    TakenBack,
    /// It was cut off, or the master was put back to what it was before.
    NotCarriedOut,
    /// The master was changed otherwise since.
    Unknown,
}

impl Outcome {
    /// Whether the master may have the run in it.
    pub fn may_be_in_master(self) -> bool {
        matches!(self, Outcome::CarriedOut | Outcome::Unknown)
    }

    pub fn words(self) -> &'static str {
        match self {
            Outcome::CarriedOut => "carried out",
            Outcome::TakenBack => "taken back",
            Outcome::NotCarriedOut => "not carried out",
            Outcome::Unknown => "unknown",
        }
    }
}

/// That the log at a path may not be read by this user, in words; none where it may, or where there is none.
pub fn closed(path: &Path) -> Option<String> {
    let error = fs::File::open(path).err()?;
    let is_closed = error.kind() == io::ErrorKind::PermissionDenied;
    is_closed.then(|| format!("{} can't be read: {}", shown(path), words(&error)))
}

/// The runs of the log at a path, in order; none where there is no log. A log that can't be read stops a run, since it may
/// hold what must not be done twice.
pub fn read_log(path: &Path) -> Result<(Vec<u8>, Vec<Run>), Failure> {
    let unread = |what: &str| Failure::file(path, format!("can't be read: {what}"));
    let bytes = match fs::read(path) {
        Ok(bytes) => bytes,
        Err(error) if error.kind() == io::ErrorKind::NotFound => return Ok(Default::default()),
        Err(error) => return Err(unread(&words(&error))),
    };
    let none = "is no log of this program, or damaged; move it away";
    let text = std::str::from_utf8(&bytes).map_err(|_| unread(none))?;
    let mut runs = Vec::new();
    for (number, line) in text.lines().enumerate() {
        let damaged = || unread(&format!("line {} {none}", number + 1));
        runs.push(Run::read(line).ok_or_else(damaged)?);
    }
    if !text.is_empty() && !text.ends_with('\n') {
        return Err(unread(none));
    }
    Ok((bytes, runs))
}

/// What became of each run, by the fingerprint that the master has now. From the last run back: one that leaves what is there
/// was carried out, and what it began with was there before it. Where what is there is older than a run, that run is not in it.
/// A batch is taken back where a take-back behind it has its journal, or leaves what was there before the batch.
pub fn outcomes(runs: &[Run], now: Option<&str>) -> Vec<Outcome> {
    let mut outcomes = vec![Outcome::Unknown; runs.len()];
    let mut there = now;
    let mut open = runs.len();
    let mut take_backs = TakeBacks::of(runs);
    for (number, run) in runs.iter().enumerate().rev() {
        let is_after = run.after.as_deref() == there;
        if !is_after && run.before.as_deref() != there {
            continue;
        }
        outcomes[number..open].fill(Outcome::NotCarriedOut);
        if is_after {
            outcomes[number] = match run.command == TAKE_BACK {
                true => take_backs.add(number),
                false => take_backs.outcome(number),
            };
            there = run.before.as_deref();
        }
        open = number;
    }
    outcomes
}

#[cfg(test)]
mod tests {
    use super::Outcome::{CarriedOut, NotCarriedOut, TakenBack, Unknown};
    use super::*;
    use crate::log::line::InputPrint;

    fn run(before: Option<&str>, after: &str) -> Run {
        Run {
            before: before.map(str::to_string),
            after: Some(after.to_string()),
            ..Run::now("post")
        }
    }

    #[test]
    fn runs_by_what_is_there() {
        let runs = [run(None, "a"), run(Some("a"), "b"), run(Some("b"), "c")];
        let all = [CarriedOut; 3];
        assert_eq!(outcomes(&runs, Some("c")), all);
        // cut off, or put back
        assert_eq!(
            outcomes(&runs, Some("b")),
            [CarriedOut, CarriedOut, NotCarriedOut]
        );
        assert_eq!(
            outcomes(&runs, Some("a")),
            [CarriedOut, NotCarriedOut, NotCarriedOut]
        );
        assert_eq!(outcomes(&runs, None), [NotCarriedOut; 3]);
        assert_eq!(outcomes(&runs, Some("x")), [Unknown; 3]);
    }

    #[test]
    fn runs_that_were_taken_back() {
        let back = |before: &str, after: Option<&str>| Run {
            before: Some(before.to_string()),
            after: after.map(str::to_string),
            ..Run::now(TAKE_BACK)
        };
        let mut runs = vec![run(None, "a"), run(Some("a"), "b"), back("b", Some("a"))];
        let wanted = [CarriedOut, TakenBack, CarriedOut];
        assert_eq!(outcomes(&runs, Some("a")), wanted);
        // the take-back was cut off
        let wanted = [CarriedOut, CarriedOut, NotCarriedOut];
        assert_eq!(outcomes(&runs, Some("b")), wanted);
        // then the first batch too
        runs.push(back("a", None));
        let wanted = [TakenBack, TakenBack, CarriedOut, CarriedOut];
        assert_eq!(outcomes(&runs, None), wanted);
        // one that did not leave what was there before the run in front of it
        let runs = [run(Some("a"), "b"), back("b", Some("c"))];
        assert_eq!(outcomes(&runs, Some("c")), [CarriedOut; 2]);
    }

    /// The fingerprint of a file of a kind that bears a name.
    fn print_of(name: &str) -> InputPrint {
        InputPrint {
            kind: "journal".to_string(),
            name: name.to_string(),
            sha256: name.to_string(),
        }
    }

    /// The counts of a run that left so many rows more than there were.
    fn rows(more: u64) -> Vec<(String, u64)> {
        vec![
            ("rows_before".to_string(), 7),
            ("rows".to_string(), 7 + more),
        ]
    }

    /// A batch that leads from one master to another, with as many rows, and wrote a journal.
    fn batch(before: &str, after: &str, journal: &str) -> Run {
        Run {
            command: "apply".to_string(),
            counts: rows(0),
            journal: Some(print_of(journal)),
            ..run(Some(before), after)
        }
    }

    /// A take-back with a journal.
    fn back_with(before: &str, after: &str, journal: &str) -> Run {
        Run {
            inputs: vec![print_of(journal)],
            counts: rows(0),
            before: Some(before.to_string()),
            after: Some(after.to_string()),
            ..Run::now(TAKE_BACK)
        }
    }

    #[test]
    fn runs_taken_back_by_their_journals() {
        // a posting between the batch and its take-back
        let mut runs = vec![
            batch("a", "b", "j"),
            run(Some("b"), "c"),
            back_with("c", "d", "j"),
        ];
        assert_eq!(
            outcomes(&runs, Some("d")),
            [TakenBack, CarriedOut, CarriedOut]
        );
        // the take-back was cut off
        assert_eq!(
            outcomes(&runs, Some("c")),
            [CarriedOut, CarriedOut, NotCarriedOut]
        );
        // the same batch again has a journal of its own
        runs.push(batch("d", "e", "k"));
        let wanted = [TakenBack, CarriedOut, CarriedOut, CarriedOut];
        assert_eq!(outcomes(&runs, Some("e")), wanted);
        // the same journal twice: one batch for each take-back
        let runs = [
            batch("a", "b", "j"),
            back_with("b", "a", "j"),
            batch("a", "b", "j"),
            run(Some("b"), "c"),
            back_with("c", "d", "j"),
        ];
        let wanted = [TakenBack, CarriedOut, TakenBack, CarriedOut, CarriedOut];
        assert_eq!(outcomes(&runs, Some("d")), wanted);
    }

    /// A journal names rows by their places, which a batch between may have changed.
    #[test]
    fn rows_that_changed_their_places() {
        let longer = Run {
            counts: rows(1),
            ..batch("b", "c", "k")
        };
        let mut runs = vec![batch("a", "b", "j"), longer, back_with("c", "d", "j")];
        let wanted = [Unknown, CarriedOut, CarriedOut];
        assert_eq!(outcomes(&runs, Some("d")), wanted);
        // it left what was there before the batch
        runs[2] = back_with("c", "a", "j");
        let wanted = [TakenBack, CarriedOut, CarriedOut];
        assert_eq!(outcomes(&runs, Some("a")), wanted);
    }

    /// The rows of a later journal have the first batch in them, which comes back with them.
    #[test]
    fn a_batch_that_a_later_journal_brings_back() {
        let runs = [
            batch("a", "b", "j"),
            batch("b", "c", "k"),
            back_with("c", "d", "j"),
            back_with("d", "e", "k"),
        ];
        let wanted = [Unknown, TakenBack, CarriedOut, CarriedOut];
        assert_eq!(outcomes(&runs, Some("e")), wanted);
        // so does a journal that no run of the log wrote
        let runs = [
            batch("a", "b", "j"),
            run(Some("b"), "c"),
            back_with("c", "d", "j"),
            back_with("d", "e", "x"),
        ];
        let wanted = [Unknown, CarriedOut, CarriedOut, CarriedOut];
        assert_eq!(outcomes(&runs, Some("e")), wanted);
        // one behind the take-back, or before the batch, doesn't
        let runs = [
            batch("z", "a", "i"),
            batch("a", "b", "j"),
            run(Some("b"), "c"),
            back_with("c", "d", "j"),
            batch("d", "e", "k"),
            back_with("e", "d", "k"),
            back_with("d", "f", "i"),
        ];
        let wanted = [
            TakenBack, TakenBack, CarriedOut, CarriedOut, TakenBack, CarriedOut, CarriedOut,
        ];
        assert_eq!(outcomes(&runs, Some("f")), wanted);
    }

    #[test]
    fn runs_behind_one_that_was_cut_off() {
        let runs = [
            run(Some("a"), "b"),
            run(Some("a"), "c"),
            run(Some("c"), "c"),
        ];
        let wanted = [NotCarriedOut, CarriedOut, CarriedOut];
        assert_eq!(outcomes(&runs, Some("c")), wanted);
        // changed by others between two runs
        let runs = [run(Some("a"), "b"), run(Some("x"), "y")];
        assert_eq!(outcomes(&runs, Some("y")), [Unknown, CarriedOut]);
    }
}
