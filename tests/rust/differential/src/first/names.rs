//! How the names of details came to pass or to get 17, told from the batch and its verdicts.

use std::collections::{HashMap, HashSet};

use agreement::case::Case;
use fantanolive::ERRORS;

use super::{judged, rows};
use crate::runs::Group;
use crate::trial::Trial;

type Key = [u8; 12];
type Name = [u8; 4];

/// Over the details on which 17 is judged.
pub const NAMES: Group = (
    "names where 17 is judged",
    &[
        "stored",
        "of a B before",
        "of a B behind",
        "of Bs before and behind",
        "of a B with 09",
        "old, of another B",
        "17, of a B with 05",
        "17, of a B with 06",
        "17, of a B with 18",
        "17, of a B of the other case type",
        "17, old, behind a B",
    ],
);

struct Detail {
    key: Key,
    kind: u8,
    name: Name,
    verdict: u64,
}

fn detail(record: &[u8], verdict: u64) -> Detail {
    let mut key = [0; 12];
    key[..2].copy_from_slice(&record[..2]);
    key[2..11].copy_from_slice(&record[5..14]);
    key[11] = record[73];
    Detail {
        key,
        kind: record[72],
        name: [record[29], record[30], record[31], record[32]],
        verdict,
    }
}

/// The set for which a verdict stands has one of these codes.
fn has(verdict: u64, codes: &[u32]) -> bool {
    codes.iter().any(|code| verdict >> code & 1 == 1)
}

/// The B records by key and name, with their places.
type Renames<'a> = HashMap<(Key, Name), Vec<(usize, &'a Detail)>>;

fn renames(details: &[Detail]) -> Renames<'_> {
    let mut renames = Renames::new();
    for (place, detail) in details.iter().enumerate() {
        if detail.kind == 0xC2 {
            let same = renames.entry((detail.key, detail.name)).or_default();
            same.push((place, detail));
        }
    }
    renames
}

/// Counts the details of a batch carried out.
pub fn note(trial: &mut Trial, case: &Case, after: &Case) {
    let details: Vec<Detail> = judged(case, after)
        .into_iter()
        .map(|(record, verdict)| detail(record, verdict))
        .collect();
    let renames = renames(&details);
    let mut stored = names_at_entry(case);
    let mut old: HashSet<(Key, Name)> = HashSet::new();
    for (place, detail) in details.iter().enumerate() {
        if detail.kind == 0xC1 || detail.kind == 0xC2 {
            if detail.verdict & ERRORS == 0 {
                let before = stored.insert(detail.key, detail.name);
                old.extend(before.map(|name| (detail.key, name)));
            }
        } else if !has(detail.verdict, &[1, 2, 3, 4, 5, 9]) {
            let was = old.contains(&(detail.key, detail.name));
            let is = stored.get(&detail.key) == Some(&detail.name);
            note_judged(trial, place, detail, &renames, is, was);
        }
    }
}

/// Counts a detail on which 17 is judged; its name `is` the stored one, or `was` before.
fn note_judged(
    trial: &mut Trial,
    place: usize,
    detail: &Detail,
    renames: &Renames,
    is: bool,
    was: bool,
) {
    let same = renames.get(&(detail.key, detail.name));
    let same = same.map_or(&[][..], |same| same);
    let giving = |&&(_, other): &&(usize, &Detail)| !has(other.verdict, &[1, 2, 3, 4, 5, 6, 18]);
    let mut add = |label: &'static str, met: bool| trial.meet_in(&NAMES, label, met);
    if has(detail.verdict, &[17]) {
        for (label, code) in NAMES.1[6..].iter().zip([5, 6, 18]) {
            let spoilt = same.iter().any(|(_, other)| has(other.verdict, &[code]));
            add(label, spoilt);
        }
        let mut twin = detail.key;
        twin[11] ^= 0xC1 ^ 0xD5;
        let twin = renames.get(&(twin, detail.name));
        let given = twin.is_some_and(|same| same.iter().any(|one| giving(&one)));
        add("17, of a B of the other case type", given);
        add("17, old, behind a B", was);
    } else if is {
        add("stored", true);
    } else {
        let mut givers = same.iter().filter(giving);
        let before = givers.clone().any(|&(other, _)| other < place);
        let behind = givers.clone().any(|&(other, _)| other > place);
        add("of a B before", before && !behind);
        add("of a B behind", behind && !before);
        add("of Bs before and behind", before && behind);
        let rejected = givers.all(|(_, other)| has(other.verdict, &[9]));
        add("of a B with 09", rejected);
        add("old, of another B", was);
    }
}

fn names_at_entry(case: &Case) -> HashMap<Key, Name> {
    let mut names = HashMap::new();
    for row in rows(case) {
        let mut key = [0; 12];
        key.copy_from_slice(&row[..12]);
        names.insert(key, [row[30], row[31], row[32], row[33]]);
    }
    names
}
