//! Applying with a journal and taking back, and the two one behind the other.

use agreement::case::{case, Case, Value};
use generator::apply_only;
use generator::journal::{enough, journaled_case, take_back_case, wild_take_back, JournaledCase};
use generator::rng::Rng;
use reference::journal::{taken, Cause, Journal};
use reference::row::ROW;

use super::Run;
use crate::trial::Trial;

pub const APPLY_JOURNALED: Run = Run {
    name: "apply_journaled",
    calls: &["apply_journaled"],
    refusals: &[],
    groups: &[(
        "apply_journaled",
        &[
            "no entry, though details were accepted",
            "a new row",
            "a new row, deleted at once",
            "a changed row",
            "a deleted row made live",
            "a place of two groups",
        ],
    )],
    share: 40,
    run: run_journaled,
};

pub const TAKE_BACK: Run = Run {
    name: "take_back",
    calls: &["take_back"],
    refusals: &[],
    groups: &[(
        "take_back",
        &[
            "the rows at entry are back",
            "other rows are left",
            "26, byte form",
            "26, count after",
            "26, place",
            "26, marks 00",
            "26, order",
            "26, unsound rows left",
        ],
    )],
    share: 60,
    run: run_take_back,
};

pub const THERE_AND_BACK: Run = Run {
    name: "there_and_back",
    calls: &[],
    refusals: &[],
    groups: &[(
        "there_and_back",
        &[
            "rows changed and rows new",
            "a buffer of another length",
            "taken back twice: refused",
            "taken back twice: carried out",
        ],
    )],
    share: 20,
    run: run_there_and_back,
};

/// The rows of a master.
fn rows_of(case: &Case) -> &[u8] {
    &case.bytes("master")[..case.count("rows") as usize * ROW]
}

/// The row count that a batch left.
fn count_left(after: &Case) -> u64 {
    after.numbers("result")[4]
}

/// The journal alone.
fn journal_of(after: &Case) -> &[u8] {
    &after.bytes("journal")[..after.numbers("result")[5] as usize]
}

fn run_journaled(rng: &mut Rng, trial: &mut Trial) {
    let case = Case::from(journaled_case(rng));
    let done = trial.only(&case);
    if done.number == 0 {
        meet_entries(trial, &case, &done.after);
    }
}

/// What the journal's entries say.
fn meet_entries(trial: &mut Trial, case: &Case, after: &Case) {
    let Some(journal) = Journal::read(journal_of(after)) else {
        trial.hold(false, "the reference wrote a journal that it can't read");
        return;
    };
    let none = journal.entries.is_empty() && after.numbers("result")[0] > 0;
    trial.meet("no entry, though details were accepted", none);
    let live = |place: u64| after.bytes("master")[place as usize * ROW + 195] == 0x40;
    for entry in &journal.entries {
        trial.meet("a new row", entry.old.is_none());
        let deleted = entry.old.is_none() && !live(entry.place);
        trial.meet("a new row, deleted at once", deleted);
        trial.meet("a changed row", entry.old.is_some());
        let revived = entry.old.is_some_and(|old| old[195] != 0x40) && live(entry.place);
        trial.meet("a deleted row made live", revived);
        trial.meet("a place of two groups", entry.place >= 128);
    }
    let same = journal.before == case.count("rows");
    trial.hold(same, "the journal's count before");
}

/// A batch that is carried out, and what applying it with a journal leaves.
fn carried_out(rng: &mut Rng, trial: &mut Trial) -> (Case, Case) {
    loop {
        let apply = apply_only(rng.number());
        let details = (apply.batch.len() / 245).saturating_sub(1);
        let case = Case::from(JournaledCase {
            journal: vec![0xEE; enough(details)],
            length: 0,
            apply,
        });
        let done = trial.call(&case);
        if done.number == 0 {
            return (case, done.after);
        }
    }
}

fn run_take_back(rng: &mut Rng, trial: &mut Trial) {
    let mut entry = Vec::new();
    let case = if rng.percent(4) {
        Case::from(wild_take_back(rng))
    } else {
        let (at_entry, after) = carried_out(rng, trial);
        entry = rows_of(&at_entry).to_vec();
        let (rows, journal) = (count_left(&after) as usize, journal_of(&after).to_vec());
        let master = after.bytes("master").to_vec();
        take_back_case(rng, master, rows, journal).into()
    };
    let done = trial.only(&case);
    if done.number == 26 {
        trial.meet(cause_of_26(&case), true);
    }
    if done.number == 0 {
        let count = done.after.numbers("rows_after")[0] as usize;
        let rows = &done.after.bytes("master")[..count * ROW];
        trial.meet("the rows at entry are back", rows == entry);
        trial.meet("other rows are left", rows != entry);
    }
}

fn cause_of_26(case: &Case) -> &'static str {
    let rows = case.count("rows") as usize;
    match taken(case.bytes("master"), rows, case.bytes("journal")) {
        Err(Cause::Form) => "26, byte form",
        Err(Cause::Count) => "26, count after",
        Err(Cause::Place) => "26, place",
        Err(Cause::Marks) => "26, marks 00",
        Err(Cause::Order) => "26, order",
        _ => "26, unsound rows left",
    }
}

/// A journal with the master that its batch left, in a buffer as long as it was or another.
fn back_of(rng: &mut Rng, trial: &mut Trial, first: &Case) -> Case {
    let (mut master, rows) = (first.bytes("master").to_vec(), count_left(first));
    if rng.percent(50) {
        master.truncate(rows as usize * ROW);
        let more = rng.below(4) * ROW;
        master.extend(rng.bytes(more));
        let other = master.len() != first.bytes("master").len();
        trial.meet("a buffer of another length", other);
    }
    let values = vec![
        Value::Bytes(master),
        Value::Count(rows),
        Value::Bytes(journal_of(first).to_vec()),
        Value::Result(vec![rng.number()]),
    ];
    case("take_back", values)
}

/// Applies a batch, takes it back, applies it again and takes it back twice.
fn run_there_and_back(rng: &mut Rng, trial: &mut Trial) {
    let (at_entry, first) = carried_out(rng, trial);
    let entries = Journal::read(journal_of(&first)).map_or(Vec::new(), |journal| journal.entries);
    let new = entries.iter().filter(|entry| entry.old.is_none()).count();
    let both = new > 0 && new < entries.len();
    trial.meet("rows changed and rows new", both);
    let back = back_of(rng, trial, &first);
    let done = trial.call(&back);
    trial.hold(done.number == 0, "the journal isn't taken back");
    hold_restored(trial, &at_entry, &back, &done.after);
    apply_again(trial, &at_entry, &first, &done.after);
    let mut twice = back;
    *twice.bytes_mut("master") = done.after.bytes("master").to_vec();
    twice.set_count("rows", done.after.numbers("rows_after")[0]);
    let done = trial.call(&twice);
    trial.meet("taken back twice: refused", done.number == 26);
    trial.meet("taken back twice: carried out", done.number == 0);
    trial.answer(0);
}

/// Row count and rows are those from before the batch, and the bytes behind them are kept.
fn hold_restored(trial: &mut Trial, at_entry: &Case, back: &Case, after: &Case) {
    let old = rows_of(at_entry).len();
    let count = after.numbers("rows_after")[0];
    trial.hold(count == at_entry.count("rows"), "the old count");
    let (left, lent) = (after.bytes("master"), back.bytes("master"));
    let rows = left.get(..old) == Some(rows_of(at_entry));
    trial.hold(rows, "the old rows");
    trial.hold(left.get(old..) == lent.get(old..), "bytes behind");
}

/// The batch once more leaves what it left before, with the same journal.
fn apply_again(trial: &mut Trial, at_entry: &Case, first: &Case, restored: &Case) {
    let old = rows_of(at_entry).len();
    let mut again = at_entry.clone();
    if let Some(rows) = restored.bytes("master").get(..old) {
        again.bytes_mut("master")[..old].copy_from_slice(rows);
    }
    let done = trial.call(&again);
    trial.hold(done.after == *first, "another outcome the second time");
}
