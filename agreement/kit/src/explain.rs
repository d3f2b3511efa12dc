//! The sentence of the papers that is at stake where two engines part, with its document and its definition: docs/RULES.md has
//! both.

use std::sync::OnceLock;

use crate::case::{Answered, Case, Outcome};
use crate::compare::{Difference, Where};

const RULES: &str = include_str!("../../../docs/RULES.md");

#[derive(Clone, Debug, PartialEq, Eq)]
pub struct Sentence {
    /// 01 or 02.
    pub document: &'static str,
    pub section: &'static str,
    pub words: &'static str,
    pub definition: &'static str,
}

/// The sentences of docs/RULES.md, in order.
pub fn sentences() -> &'static [Sentence] {
    static SENTENCES: OnceLock<Vec<Sentence>> = OnceLock::new();
    SENTENCES.get_or_init(|| {
        let mut section = "";
        let mut is_table = false;
        let mut sentences = Vec::new();
        for line in RULES.lines() {
            if let Some(name) = line.strip_prefix("## ") {
                section = name;
                continue;
            }
            let Some(cells) = line.strip_prefix("| ") else {
                is_table &= line.starts_with("|-");
                continue;
            };
            let cells: Vec<&str> = cells.split(" | ").collect();
            match cells[..] {
                ["sentence", ..] => is_table = true,
                [words, definition, ..] if is_table => {
                    let document = if section.starts_with("Document 02") {
                        "02"
                    } else {
                        "01"
                    };
                    sentences.push(Sentence {
                        document,
                        section,
                        words,
                        definition,
                    });
                }
                _ => {}
            }
        }
        sentences
    })
}

/// The sentence that begins so; one of a section where its name stands before a bar.
pub fn sentence(start: &str) -> Option<&'static Sentence> {
    let (section, start) = start.split_once('|').unwrap_or(("", start));
    let mut all = sentences().iter();
    all.find(|one| one.words.starts_with(start) && one.section.contains(section))
}

/// The beginnings of the sentences on codes.
pub const CODES: [(u32, &str); 20] = [
    (1, "01: state not in the table"),
    (2, "02: SSN not nine digits"),
    (3, "03: type (73)"),
    (4, "04: case type (74)"),
    (5, "05: 30–33"),
    (6, "06 (A, B)"),
    (7, "07 (A, M, S)"),
    (8, "08 (A)"),
    (9, "09 (all but A)"),
    (10, "10 (L)"),
    (11, "11 (C)"),
    (12, "12 (T)"),
    (13, "13 (S)"),
    (14, "14 (Z)"),
    (15, "15 (A)"),
    (16, "16 (A, R)"),
    (17, "17 (all but A, B)"),
    (18, "18: 228–244"),
    (51, "51 (A)"),
    (52, "52 (A)"),
];

/// The beginnings of the sentences on refusals: those of a call, then those of all calls.
pub const REFUSALS: [(&str, u64, &str); 46] = [
    ("add_cents", 3, "a conversion, refused by 3 and 4"),
    ("add_cents", 4, "a conversion, refused by 3 and 4"),
    ("records_to", 2, "before it 2, then 4"),
    ("records_to", 4, "before it 2, then 4"),
    ("merge", 5, "the first input, then the second"),
    ("merge", 6, "the first input, then the second"),
    ("merge", 20, "the first input, then the second"),
    ("merge", 21, "the first input, then the second"),
    ("merge", 7, "the first input, then the second"),
    ("merge", 8, "the first input, then the second"),
    ("reconcile", 11, "11 buffer below 245"),
    ("reconcile", 12, "12 state not in the table"),
    ("contacts_codes", 12, "it is refused by 18, by 12"),
    ("contacts_codes", 19, "it is refused by 18, by 12"),
    ("find", 14, "a key not of twelve bytes is unsound"),
    ("find", 15, "Finding a case|refused, in order: 3; 4"),
    ("", 1, "1 year outside"),
    ("", 2, "2 list not made"),
    ("", 3, "3 master length no multiple"),
    ("", 4, "4 an unsound row or order"),
    ("", 5, "5 batch empty"),
    ("", 6, "it now means only that CTL is missing"),
    ("", 20, "20, a state not in the table"),
    ("", 21, "then 21, a total"),
    ("", 7, "7 a count differs"),
    ("", 8, "8 an amount differs"),
    ("", 9, "9 rows plus A records"),
    ("", 10, "10 verdict list shorter"),
    ("", 11, "11 reject buffer below"),
    ("", 13, "13 no calendar date"),
    ("", 16, "refusal 16, a byte without"),
    ("", 17, "is checked before 17"),
    ("", 18, "refusal 18 is a file or table length"),
    ("", 19, "then 19, a table without space"),
    ("", 22, "refusal 22 is a file empty"),
    ("", 23, "then 23 a last record"),
    ("", 24, "then 24 a line list"),
    ("", 25, "refusal 25 is a journal buffer"),
    ("", 26, "refusal 26, after 3 and 4"),
    ("", 27, "refusal 27, keys unsound"),
    ("", 28, "and before 28"),
    ("", 29, "refusal 29 comes exactly"),
    ("", 30, "after it 30"),
    ("", 31, "after 3 and 4 comes refusal 31"),
    ("", 32, "then refusal 32"),
    ("", 33, "and 33 an output shorter"),
];

/// The beginnings of the sentences on what a call writes: by call, and by a part of the field's name; an empty one is for the rest.
pub const FIELDS: [(&str, &str, &str); 62] = [
    (
        "apply",
        "rejects Rejected Error Codes",
        "the six lowest codes",
    ),
    (
        "apply",
        "rejects OCSE Last Name",
        "the four characters of 17",
    ),
    ("apply", "rejects Request Code", "a space, column 245"),
    (
        "apply",
        "rejects TANF",
        "then the control record of Chart 0-2",
    ),
    (
        "apply",
        "rejects Non-TANF",
        "then the control record of Chart 0-2",
    ),
    (
        "apply",
        "rejects",
        "the reject file has, for each detail with a code",
    ),
    ("apply", "result", "the result carries accepted"),
    ("apply", "journal count", "the row counts before and after"),
    ("apply", "journal place", "its place after the batch"),
    ("apply", "journal mark", "a mark (00 new, 01 changed)"),
    ("apply", "journal old row", "a mark (00 new, 01 changed)"),
    ("apply", "journal bytes", "then, by rising place"),
    ("apply", "", "the machine runs on each detail in turn"),
    (
        "take_back",
        "",
        "for every batch carried out, taking it back",
    ),
    ("totals", "", "(ours: the totals"),
    ("merge", "out Total", "with summed totals"),
    ("merge", "", "the first's details, the second's"),
    ("find_many", "comparisons", "the number of comparisons"),
    ("find_many", "", "an equal one gives its place"),
    ("find", "", "the place of the key's row"),
    ("reconcile", "Obligor First Name", "first name cut to ten"),
    ("reconcile", "Hold Indicator", "80–81 blank"),
    ("reconcile", "Action Indicator", "80–81 blank"),
    (
        "reconcile",
        "Exclusion Indicator",
        "reconciliation prints each row's set as stored",
    ),
    ("reconcile", "Cases Returned", "then RCT"),
    ("reconcile", "Extract Date", "then RCT"),
    (
        "reconcile",
        "records records",
        "the result is the number of REC",
    ),
    ("reconcile", "", "fields as in the row"),
    ("pages", "Page Number", "page numbers begin at"),
    ("pages", "out CASES", "the heading is CASES"),
    ("pages", "out TOTAL", "the foot TOTAL"),
    ("pages", "Lines of the Page", "the foot TOTAL"),
    ("pages", "Exclusions Set", "how many exclusion bits"),
    ("pages", "pages pages", "the result counts the pages"),
    ("pages", "", "a line has the key"),
    ("add_cents", "", "a conversion, refused by 3 and 4"),
    ("post", "lines", "a line with both above zero"),
    ("post", "listed", "the list is of"),
    (
        "post",
        "master Status",
        "a case is deleted exactly when both parts are zero",
    ),
    ("post", "", "a collection (76–86) lowers"),
    ("to_ebcdic", "", "with EBCDIC codes from"),
    ("to_ascii", "", "with EBCDIC codes from"),
    ("contacts_update", "faulty", "and its number, from 1"),
    (
        "contacts_update",
        "result",
        "the result is the new table count",
    ),
    ("contacts_update", "", "a record replaces whole"),
    (
        "contacts_codes",
        "codes codes",
        "and its result counts them",
    ),
    ("contacts_codes", "", "a second call writes"),
    (
        "records_to",
        "records records",
        "item 11|the result counts them",
    ),
    ("records_to", "Transaction Type", "from a row, a wanted row"),
    (
        "records_to",
        "Exclusion Indicator",
        "exclusions in bit order",
    ),
    ("records_to", "", "with key, type, stored last name"),
    ("type A", "Local Code", "local code in both"),
    ("type A", "Case ID", "case ID and date replaced"),
    ("type A", "Date Issued", "case ID and date replaced"),
    ("type A", "Address", "all five address fields"),
    ("type A", "City", "all five address fields"),
    ("type A", "Zip", "all five address fields"),
    ("type A", "Payment", "transfer fields blank"),
    ("type A", "Transfer", "transfer fields blank"),
    ("type A", "Cents", "A, D and M set the cents"),
    ("type A", "Exclusion", "ADM excludes retirement"),
    ("type A", "", "on a live row: names"),
];

/// The beginnings of the sentences on what the other types change.
pub const TYPES: [(u8, &str); 9] = [
    (b'B', "B: both names"),
    (b'C', "C: case ID"),
    (b'L', "L: local code"),
    (b'R', "R: the set"),
    (b'Z', "Z: the address"),
    (b'M', "M: arrearage"),
    (b'D', "D: arrearage zero"),
    (b'S', "S: payment year"),
    (b'T', "T: transfer state"),
];

/// Other sentences that are named.
pub const OTHERS: [&str; 8] = [
    "with 03, only",
    "with 01, 02 or 04",
    "17 isn't judged where",
    "warnings come only",
    "where it is judged, error 17",
    "bytes past the last row",
    "1. the outcome of each public call",
    "A, D and M set the cents",
];

fn refusal(call: &str, number: u64) -> Option<&'static str> {
    let call = if call == "apply_journaled" {
        "apply"
    } else {
        call
    };
    let own = REFUSALS
        .iter()
        .find(|(of, one, _)| *of == call && *one == number);
    let any = REFUSALS
        .iter()
        .find(|(of, one, _)| of.is_empty() && *one == number);
    own.or(any).map(|(_, _, start)| *start)
}

fn field(call: &str, name: &str) -> Option<&'static str> {
    let call = if call == "apply_journaled" {
        "apply"
    } else {
        call
    };
    let mut own = FIELDS.iter().filter(|(of, _, _)| *of == call);
    own.find(|(_, part, _)| name.contains(part))
        .map(|(_, _, start)| *start)
}

/// The type of the last detail with a row's key, in ordinary letters.
fn type_under(case: &Case, key: &[u8]) -> Option<u8> {
    let details = case.bytes("batch").chunks_exact(245);
    let mut own =
        details.filter(|record| [&record[..2], &record[5..14], &record[73..74]].concat() == key);
    let letter = generator::text::shown(&[own.next_back()?[72]]);
    letter.bytes().next()
}

/// Sentences on codes that one engine gives and the other doesn't.
fn of_codes(codes: &[u32], sets: [u64; 2], starts: &mut Vec<&'static str>) {
    let has = |code: u32| sets.iter().any(|set| set >> code & 1 == 1);
    for code in codes {
        let known = CODES.iter().find(|(one, _)| one == code);
        starts.extend(known.map(|(_, start)| *start));
        if *code == 17 {
            starts.push("where it is judged, error 17");
        }
    }
    let late = codes.iter().any(|code| [9, 17].contains(code));
    if late && [1, 2, 4].into_iter().any(has) {
        starts.push("with 01, 02 or 04");
    }
    if codes.contains(&17) && (has(5) || has(9)) {
        starts.push("17 isn't judged where");
    }
    if has(3) && !codes.contains(&3) {
        starts.push("with 03, only");
    }
    if codes.iter().any(|&code| code > 50) && (1..=18).any(has) {
        starts.push("warnings come only");
    }
}

/// Sentences on a row that a batch left: those of the type of its key's last detail.
fn of_row(case: &Case, ours: &Outcome, offset: usize, name: &str, starts: &mut Vec<&'static str>) {
    let master = ours.bytes(case, "master");
    let row = offset / 200 * 200;
    let key = master.get(row..row + 12);
    match key.and_then(|key| type_under(case, key)) {
        Some(b'A') => starts.extend(field("type A", name)),
        Some(kind) => {
            let own = TYPES.iter().find(|(one, _)| *one == kind);
            starts.extend(own.map(|(_, start)| *start));
        }
        None => starts.extend(field(case.call().name, name)),
    }
    if name.contains("Cents") {
        starts.push("A, D and M set the cents");
    }
}

/// Whether a byte is one that ours kept.
fn is_kept(case: &Case, ours: &Outcome, argument: usize, offset: usize) -> bool {
    let before = crate::case::bytes_of(&case.values[argument]);
    let after = ours.after(case, argument);
    case.call().arguments[argument].is_written() && before.get(offset) == after.get(offset)
}

/// The sentences at stake where two engines part.
pub fn explain(
    case: &Case,
    difference: &Difference,
    ours: &Outcome,
    theirs: &Answered,
) -> Vec<&'static Sentence> {
    let (call, name) = (case.call().name, &difference.kind.field);
    let mut starts: Vec<&'static str> = Vec::new();
    match &difference.at {
        Where::Failure(_) => starts.push("1. the outcome of each public call"),
        Where::Answer => {
            let answers = [Some(ours.answer), difference.kind.answers.1];
            let refused = answers.into_iter().flatten().filter(|&number| number > 0);
            starts.extend(refused.filter_map(|number| refusal(call, number)));
        }
        Where::Verdict { at, codes } => {
            let set = |outcome: &Outcome| outcome.numbers(case, "verdicts")[*at];
            let other = match theirs {
                Answered::Outcome(theirs) => set(theirs),
                Answered::Failed(_) => 0,
            };
            of_codes(codes, [set(ours), other], &mut starts);
        }
        Where::Byte { offset, .. } if name.starts_with("master ") && case.has("batch") => {
            of_row(case, ours, *offset, name, &mut starts);
        }
        Where::Byte { .. } | Where::Number { .. } => starts.extend(field(call, name)),
    }
    if let Where::Byte {
        argument, offset, ..
    } = difference.at
    {
        if is_kept(case, ours, argument, offset) {
            starts.push("bytes past the last row");
        }
    }
    let mut found: Vec<&Sentence> = starts.into_iter().filter_map(sentence).collect();
    found.dedup();
    found
}
