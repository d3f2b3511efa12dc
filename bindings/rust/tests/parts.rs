//! One file sent as several: a batch and its parts through the library, from the same master; what the proviso on B records is
//! for, and what being carried out is for. And the totals of a batch's details.

mod sparse;
mod text;

use fantanolive::{apply, totals, Refusal, Totals, MAX_RECORDS, RECORD, ROW};
use sparse::Sparse;
use text::{filled, paper_batch, record};

/// A detail of OH, SSN 123456789, case type N.
fn detail(kind: &str, texts: &[(usize, &str)]) -> Vec<u8> {
    let base = [(1, "OH"), (6, "123456789"), (30, "SMITH"), (50, "JOHN")];
    let kind = [(65, "00000025"), (73, kind), (74, "N")];
    record(&[&base[..], &kind[..], texts].concat())
}

/// The control record that states the totals of some details.
fn control(state: &str, details: &[Vec<u8>]) -> Vec<u8> {
    let counted = totals(&[details.concat(), vec![0; RECORD]].concat()).expect("few details");
    let stated = format!(
        "{:09}{:09}{:011}{:011}",
        counted.tanf_count, counted.non_tanf_count, counted.tanf_amount, counted.non_tanf_amount
    );
    record(&[(1, state), (3, "CTL"), (6, &stated)])
}

/// SMITH's live row.
fn live_row() -> Vec<u8> {
    let mut row = filled(
        ROW,
        &[
            (1, "OH123456789N000"),
            (31, "SMITH"),
            (51, "JOHN"),
            (66, "00000050"),
            (79, "000000000000"),
            (197, "00"),
        ],
    );
    row[194] = 0;
    row
}

/// A verdict, and the four characters that go with 17.
type Verdict = (u64, Vec<u8>);

/// A master that batches are sent to one behind the other: its rows, and space behind them.
#[derive(Clone)]
struct Master {
    bytes: Vec<u8>,
    rows: usize,
}

impl Master {
    fn new(rows: &[Vec<u8>], places: usize) -> Master {
        let mut bytes = rows.concat();
        bytes.resize(places * ROW, 0xEE);
        Master {
            bytes,
            rows: rows.len(),
        }
    }

    fn rows(&self) -> &[u8] {
        &self.bytes[..self.rows * ROW]
    }

    /// Sends a batch and answers its verdicts in batch order.
    fn send_as(
        &mut self,
        state: &str,
        year: u64,
        codes: &str,
        details: &[Vec<u8>],
    ) -> Result<Vec<Verdict>, Refusal> {
        let batch = [details.concat(), control(state, details)].concat();
        let mut verdicts = vec![0; details.len()];
        let mut rejects = vec![0; (details.len() + 1) * RECORD];
        let codes = text::ebcdic(codes);
        let counts = apply(
            &mut self.bytes,
            self.rows,
            &batch,
            &codes,
            year,
            &mut verdicts,
            &mut rejects,
        )?;
        self.rows = usize::try_from(counts.rows).expect("it fits");
        let mut rejects = rejects.chunks(RECORD);
        let named = verdicts.into_iter().map(|verdict| {
            let reject = (verdict != 0).then(|| rejects.next().expect("a reject record"));
            let name = reject.filter(|_| verdict & (1 << 17) != 0);
            (verdict, name.map_or(vec![], |r| r[239..243].to_vec()))
        });
        Ok(named.collect())
    }

    fn send(&mut self, details: &[Vec<u8>]) -> Result<Vec<Verdict>, Refusal> {
        self.send_as("OH", 2007, "", details)
    }
}

fn codes(verdicts: &[Verdict]) -> Vec<u64> {
    verdicts.iter().map(|(verdict, _)| *verdict).collect()
}

#[test]
fn a_file_sent_as_several_is_the_file() {
    let other =
        |kind: &str, texts: &[(usize, &str)]| detail(kind, &[&[(6, "987654321")], texts].concat());
    let details = [
        detail("M", &[(65, "00000100")]),
        other("A", &[]),
        detail("L", &[(30, "JONES"), (3, "000")]),
        other("D", &[(30, "BROWN")]),
        other("B", &[(30, "BROWN")]),
        detail("M", &[(65, "00000200")]),
        detail("C", &[]),
    ];
    let start = Master::new(&[live_row()], 3);
    let mut whole = start.clone();
    let expected = whole.send(&details).expect("it is carried out");
    assert_eq!(codes(&expected)[2], 1 << 17);
    // the key with a B has its records in one part; an empty part is one
    for cuts in [[0, 1, 5, 7], [1, 1, 6, 7], [0, 0, 6, 6], [1, 5, 5, 6]] {
        let mut parts = start.clone();
        let mut joined = vec![];
        let mut at = 0;
        for end in cuts.into_iter().chain([7]) {
            joined.extend(parts.send(&details[at..end]).expect("it is carried out"));
            at = end;
        }
        assert_eq!((parts.rows(), &joined), (whole.rows(), &expected));
    }
}

#[test]
fn a_name_change_in_another_batch() {
    let details = [detail("D", &[(30, "JONES")]), detail("B", &[(30, "JONES")])];
    let mut whole = Master::new(&[live_row()], 1);
    assert_eq!(codes(&whole.send(&details).unwrap()), [0, 1 << 9]);
    let mut parts = Master::new(&[live_row()], 1);
    let first = parts.send(&details[..1]).unwrap();
    assert_eq!(first, [(1 << 17, text::ebcdic("SMIT"))]);
    assert_eq!(codes(&parts.send(&details[1..]).unwrap()), [0]);
    assert_ne!(parts.rows(), whole.rows());
}

#[test]
fn a_refused_batch_says_nothing() {
    // one free place: together the two A records could need two
    let details = [detail("A", &[]), detail("A", &[])];
    let mut whole = Master::new(&[], 1);
    assert_eq!(whole.send(&details), Err(Refusal::NoRoom));
    let mut parts = Master::new(&[], 1);
    assert_eq!(codes(&parts.send(&details[..1]).unwrap()), [0]);
    assert_eq!(codes(&parts.send(&details[1..]).unwrap()), [0]);
    assert_eq!((whole.rows, parts.rows), (0, 1));
    // no free place
    assert_eq!(
        Master::new(&[], 0).send(&details[..1]),
        Err(Refusal::NoRoom)
    );
}

#[test]
fn another_state_year_list_or_master() {
    let live = || Master::new(&[live_row()], 1);
    let amend = [detail("M", &[])];
    assert_eq!(codes(&live().send(&amend).unwrap()), [0]);
    let other = live().send_as("AL", 2007, "", &amend).unwrap();
    assert_eq!(codes(&other), [1 << 1]);
    assert_eq!(codes(&Master::new(&[], 0).send(&amend).unwrap()), [1 << 9]);
    let pay = [detail("S", &[(80, "2008")])];
    for (year, code) in [(2008, 0), (2007, 1 << 13)] {
        let verdicts = live().send_as("OH", year, "", &pay).unwrap();
        assert_eq!(codes(&verdicts), [code]);
    }
    let relocate = [detail("L", &[(3, "001")])];
    for (list, code) in [("001", 0), ("", 1 << 10)] {
        let verdicts = live().send_as("OH", 2007, list, &relocate).unwrap();
        assert_eq!(codes(&verdicts), [code]);
    }
}

#[test]
fn totals_of_details() {
    let counted = |tanf_count, non_tanf_count, tanf_amount, non_tanf_amount| {
        Ok(Totals {
            tanf_count,
            non_tanf_count,
            tanf_amount,
            non_tanf_amount,
        })
    };
    assert_eq!(totals(&paper_batch()), counted(0, 2, 0, 125));
    // only A and M count amounts, only digits do, and other case types count in nothing; the last record may be anything
    let details = [
        detail("A", &[(74, "A"), (65, "99999999")]),
        detail("M", &[(74, "A"), (65, "00000001")]),
        detail("M", &[(74, "A"), (65, "0000001 ")]),
        detail("D", &[]),
        detail("A", &[(74, "X")]),
        detail("M", &[(65, "00000007")]),
    ];
    let last = [record(&[]), vec![0; RECORD], detail("A", &[])];
    for last in last {
        let batch = [details.concat(), last].concat();
        assert_eq!(totals(&batch), counted(3, 2, 100_000_000, 7));
    }
    assert_eq!(totals(&vec![0xEE; RECORD]), counted(0, 0, 0, 0));
}

#[test]
fn totals_of_wrong_lengths_and_of_most_records() {
    let refused = Err(Refusal::WrongBatch);
    assert_eq!(totals(&[]), refused);
    assert_eq!(totals(&[0; 246]), refused);
    let many = detail("A", &[(65, "99999999")]).repeat(65_537);
    let counted = totals(&many).expect("65,537 records");
    assert_eq!(counted.non_tanf_count, 65_536);
    assert_eq!(counted.non_tanf_amount, 65_536 * 99_999_999);
    let over = Sparse::new(RECORD * (MAX_RECORDS + 1));
    let counted = totals(&over[RECORD..]).expect("16,777,216 records");
    assert_eq!(counted.tanf_count + counted.non_tanf_count, 0);
    assert_eq!(totals(&over), refused);
}
