//! The calls over whole files: each gives what the call in lent buffers writes, at the length that it writes.

mod text;

use fantanolive::layouts::{Detail, Row};
use fantanolive::{owned, NotConverted, Record, Refusal, RECORD, ROW};
use text::{ebcdic, filled, paper_batch};

fn master() -> Vec<u8> {
    owned::apply(&[], &paper_batch(), &[], 2007)
        .expect("carried out")
        .master
}

#[test]
fn a_batch_and_back() {
    let applied = owned::apply(&[], &paper_batch(), &[], 2007).expect("carried out");
    assert_eq!((applied.counts.accepted, applied.counts.rejected), (1, 1));
    assert_eq!(applied.verdicts, [0, 1 << 17]);
    assert_eq!(
        (applied.master.len(), applied.rejects.len()),
        (ROW, 2 * RECORD)
    );
    let journaled = owned::apply_journaled(&[], &paper_batch(), &[], 2007).expect("carried out");
    assert_eq!(journaled.applied, applied);
    assert_eq!(journaled.journal, [0, 1, 0, 0]);
    let back = owned::take_back(&applied.master, &journaled.journal);
    assert_eq!(back, Ok(Vec::new()));
    let twice = owned::take_back(&[], &journaled.journal);
    assert_eq!(twice, Err(Refusal::WrongJournal));
}

#[test]
fn refusals() {
    let refused = |master: &[u8], batch: &[u8]| owned::apply(master, batch, &[], 2007).map(|_| ());
    assert_eq!(refused(&[0; 7], &paper_batch()), Err(Refusal::WrongMaster));
    assert_eq!(refused(&[0; ROW], &paper_batch()), Err(Refusal::UnsoundRow));
    assert_eq!(refused(&[], &[]), Err(Refusal::WrongBatch));
    assert_eq!(refused(&[], &[0; RECORD - 1]), Err(Refusal::WrongBatch));
    assert_eq!(owned::pages(&[0; 3]), Err(Refusal::WrongMaster));
    assert_eq!(owned::post(&[], &[]).map(|_| ()), Err(Refusal::WrongFile));
    assert_eq!(owned::merge(&[], &[]), Err(Refusal::WrongBatch));
    let no_place = NotConverted::NoCounterpart { place: 1 };
    assert_eq!(owned::to_ebcdic(b"Aa"), Err(no_place));
}

#[test]
fn looking_up_and_writing() {
    let master = master();
    let (key, none) = (ebcdic("OH123456789N"), ebcdic("OH123456789A"));
    assert_eq!(owned::find(&master, &key), Ok(0));
    let found = owned::find_many(&master, &[none, key].concat()).expect("carried out");
    assert_eq!((found.places, found.comparisons), (vec![None, Some(0)], 2));
    let state = ebcdic("OH");
    let file = owned::reconcile(&master, &state, &ebcdic("20071231")).expect("carried out");
    assert_eq!(file.len(), 2 * RECORD);
    assert_eq!(owned::pages(&master).map(|pages| pages.len()), Ok(3 * 132));
    let mut wanted = Row::read(&master).expect("a row");
    wanted.set_arrearage_number(30).expect("eight digits");
    let wanted = wanted.write().expect("fits");
    let records = owned::records_to(&master, &wanted, &[]).expect("carried out");
    let [record] = records.chunks(RECORD).collect::<Vec<_>>()[..] else {
        panic!("one record");
    };
    let record = Detail::read(record).expect("a record");
    assert_eq!(
        (&record.transaction_type[..], record.arrearage_number()),
        ("M", Some(30))
    );
}

#[test]
fn postings_contacts_and_merges() {
    let total = filled(240, &[(6, "TOTAL"), (35, &"0".repeat(30))]);
    let posted = owned::post(&master(), &total).expect("carried out");
    assert_eq!((posted.master, posted.listed), (master(), Vec::new()));
    let updated = owned::contacts_update(&[], &[0; 440]).expect("carried out");
    assert_eq!((updated.table.len(), updated.faulty), (0, vec![1, 2]));
    assert_eq!(owned::contacts_codes(&[], &ebcdic("OH")), Ok(Vec::new()));
    assert_eq!(owned::add_cents(&[]), Ok(Vec::new()));
    let empty = owned::batch("OH", &[]).expect("fits");
    assert_eq!(owned::merge(&paper_batch(), &empty), Ok(paper_batch()));
    assert_eq!(owned::to_ascii(&ebcdic("A-1")), Ok(b"A-1".to_vec()));
}
