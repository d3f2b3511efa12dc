//! What became of lines and of the cents of rows, told from the reference's outcome; and the
//! balances before and after, which must add up.

use std::collections::BTreeMap;

use agreement::case::Case;
use generator::text::text;
use reference::posting::{
    adjustment, balance, collection, count, line_key, Cents, LINE, MOST_BALANCE,
};
use reference::row::{is_live, row_key, Key, ROW};
use reference::text::{columns, number};

use super::rows;
use crate::runs::Group;
use crate::trial::Trial;

pub const POSTED: Group = (
    "lines posted",
    &[
        "collection below the balance",
        "collection of the whole balance",
        "collection above the balance",
        "adjustment",
        "adjustment up to 99,999,999.99",
        "both zero",
        "a last digit C0 to C9",
        "a last digit F0 to F9",
        "balance below a dollar",
    ],
);
pub const LISTED: Group = (
    "lines listed",
    &[
        "collection bad",
        "adjustment bad",
        "both bad",
        "both above zero",
        "no row",
        "deleted row",
        "row deleted by an earlier line",
        "adjustment beyond 99,999,999.99",
    ],
);
pub const REFUSED: Group = (
    "collection files refused",
    &[
        "22, no record",
        "22, length",
        "23, TOTAL",
        "23, adjustments",
        "23, collections",
        "24",
    ],
);
pub const CENTS: Group = (
    "cents of rows",
    &[
        "set to 00 by a batch",
        "kept by a batch that changed the row",
        "no dollars, changed by a batch",
        "no dollars, reconciled",
    ],
);

/// The rows' balances by key.
fn balances(case: &Case) -> BTreeMap<Key, u64> {
    let balances = rows(case).map(|row| (row_key(row), balance(row).0));
    balances.collect()
}

/// A line of a posted file in its turn. A row that is there has a balance, 0 if it is deleted.
struct Turn<'a> {
    line: &'a [u8],
    key: Key,
    at_entry: Option<u64>,
    balance: Option<u64>,
    listed: bool,
}

impl Turn<'_> {
    /// Collection and adjustment, a bad one as zero.
    fn amounts(&self) -> (u64, u64) {
        let cents = |amount: Option<Cents>| amount.map_or(0, |Cents(sum)| sum);
        (cents(collection(self.line)), cents(adjustment(self.line)))
    }
}

fn turns<'a>(case: &'a Case, after: &Case) -> Vec<Turn<'a>> {
    let at_entry = balances(case);
    let mut now = at_entry.clone();
    let list = after.numbers("lines");
    let mut listed = list[..after.numbers("listed")[0] as usize]
        .iter()
        .peekable();
    let file = case.bytes("file");
    let mut turns = Vec::new();
    for (line, number) in file.chunks_exact(LINE).zip(1..).take(file.len() / LINE - 1) {
        let key = line_key(line);
        let turn = Turn {
            line,
            key,
            at_entry: at_entry.get(&key).copied(),
            balance: now.get(&key).copied(),
            listed: listed.next_if(|&&one| one == number).is_some(),
        };
        if let (false, Some(balance)) = (turn.listed, turn.balance) {
            let (collected, adjusted) = turn.amounts();
            now.insert(key, (balance + adjusted).saturating_sub(collected));
        }
        turns.push(turn);
    }
    turns
}

/// What is said of one key: balance before, and the sums over its posted lines.
#[derive(Default)]
struct Account {
    before: u64,
    collections: u64,
    adjustments: u64,
    excess: u64,
}

/// A key under which "balances before plus adjustments" aren't "balances after plus collections
/// less excess".
pub fn uneven(case: &Case, after: &Case) -> Option<Key> {
    let mut accounts: BTreeMap<Key, Account> = BTreeMap::new();
    for (key, before) in balances(case) {
        accounts.entry(key).or_default().before = before;
    }
    for turn in turns(case, after).iter().filter(|turn| !turn.listed) {
        let (collected, adjusted) = turn.amounts();
        let account = accounts.entry(turn.key).or_default();
        account.collections += collected;
        account.adjustments += adjusted;
        account.excess += collected.saturating_sub(turn.balance.unwrap_or(0));
    }
    let left = balances(after);
    let uneven = accounts.iter().find(|(key, account)| {
        let after = left.get(*key).copied().unwrap_or(0);
        account.before + account.adjustments + account.excess != after + account.collections
    });
    uneven.map(|(&key, _)| key)
}

/// Counts the lines of a file that was posted.
pub fn note_file(trial: &mut Trial, case: &Case, after: &Case) {
    for turn in turns(case, after) {
        match turn.listed {
            true => trial.meet_in(&LISTED, cause_of_listing(&turn), true),
            false => note_posted(trial, &turn),
        }
    }
}

fn note_posted(trial: &mut Trial, turn: &Turn) {
    let (collected, adjusted) = turn.amounts();
    let balance = turn.balance.unwrap_or(0);
    let mut add = |label, met| trial.meet_in(&POSTED, label, met);
    let (takes, adds) = (collected > 0, adjusted > 0);
    add("collection below the balance", takes && collected < balance);
    add("collection of the whole balance", collected == balance);
    add("collection above the balance", collected > balance);
    add("adjustment", adds);
    let most = adds && balance + adjusted == MOST_BALANCE.0;
    add("adjustment up to 99,999,999.99", most);
    add("both zero", !takes && !adds);
    let last = turn.line[if takes { 85 } else { 96 }];
    add("a last digit C0 to C9", last < 0xF0);
    add("a last digit F0 to F9", last >= 0xF0);
    add("balance below a dollar", balance < 100);
}

/// The first cause for which a line is listed.
fn cause_of_listing(turn: &Turn) -> &'static str {
    match (collection(turn.line), adjustment(turn.line), turn.balance) {
        (None, None, _) => "both bad",
        (None, _, _) => "collection bad",
        (_, None, _) => "adjustment bad",
        (Some(Cents(1..)), Some(Cents(1..)), _) => "both above zero",
        (_, _, None) => "no row",
        (_, _, Some(0)) if turn.at_entry == Some(0) => "deleted row",
        (_, _, Some(0)) => "row deleted by an earlier line",
        _ => "adjustment beyond 99,999,999.99",
    }
}

/// Counts a file refused by 22 to 24, by the first cause.
pub fn note_refused(trial: &mut Trial, case: &Case, number: u64) {
    let file = case.bytes("file");
    let cause = match number {
        22 if file.is_empty() => "22, no record",
        22 => "22, length",
        23 => cause_of_23(file),
        24 => "24",
        _ => return,
    };
    trial.meet_in(&REFUSED, cause, true);
}

/// Counts the rows with cents that a batch changed.
pub fn note_batch(trial: &mut Trial, case: &Case, after: &Case) {
    let mut left = after.bytes("master").chunks_exact(ROW);
    for row in rows(case) {
        let same = left.find(|behind| behind[..12] == row[..12]);
        let changed = same.filter(|&behind| behind != row);
        let Some(behind) = changed.filter(|_| row[196..198] != [0xF0; 2]) else {
            continue;
        };
        let set = behind[196..198] == [0xF0; 2];
        trial.meet_in(&CENTS, "set to 00 by a batch", set);
        trial.meet_in(&CENTS, "kept by a batch that changed the row", !set);
        let cents_alone = row[65..73] == [0xF0; 8];
        trial.meet_in(&CENTS, "no dollars, changed by a batch", cents_alone);
    }
}

/// Counts the REC records of rows without dollars.
pub fn note_reconciled(trial: &mut Trial, case: &Case) {
    for row in rows(case) {
        let shown = is_live(row) && row[..2] == *case.bytes("state");
        let cents_alone = row[65..73] == [0xF0; 8];
        trial.meet_in(&CENTS, "no dollars, reconciled", shown && cents_alone);
    }
}

/// The first part of the last record that is wrong.
fn cause_of_23(file: &[u8]) -> &'static str {
    let mut lines: Vec<&[u8]> = file.chunks_exact(LINE).collect();
    let last = lines.pop().unwrap_or(&[]);
    if columns(last, 6, 14) != text("TOTAL    ") {
        "23, TOTAL"
    } else if number(columns(last, 35, 49)) != Some(count(&lines, adjustment)) {
        "23, adjustments"
    } else {
        "23, collections"
    }
}
