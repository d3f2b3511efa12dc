//! apply, find and reconcile through the wrapper: the example batch of document 01 byte by byte, each refusal by its number and
//! with every buffer kept, empty slices, and calls in several threads.

mod text;

use fantanolive::{apply, find, has_code, reconcile, Counts, Refusal, RECORD, ROW};
use text::{ebcdic, paper_batch, record};

const SPACE: usize = 4;

/// The row that the example batch leaves.
fn paper_row() -> Vec<u8> {
    let mut row = vec![0x40; ROW];
    let fields = [
        (1, "OH123456789N000"),
        (31, "SMITH"),
        (51, "JOHN"),
        (66, "00000025"),
        (79, "000000000000"),
        (197, "00"),
    ];
    for (column, text) in fields {
        row[column - 1..column - 1 + text.len()].copy_from_slice(&ebcdic(text));
    }
    row[194] = 0;
    row
}

/// A master with the example's row and space for three more, filled with a mark.
fn paper_master() -> Vec<u8> {
    let mut master = paper_row();
    master.resize(SPACE * ROW, 0xAA);
    master
}

fn control(counts_and_amounts: &str) -> Vec<u8> {
    record(&[(1, "OHCTL"), (6, counts_and_amounts)])
}

/// The example batch with texts from columns on in its control record.
fn with_control(texts: &[(usize, &str)]) -> Vec<u8> {
    let mut batch = paper_batch();
    for (column, text) in texts {
        let at = 2 * RECORD + column - 1;
        batch[at..at + text.len()].copy_from_slice(&ebcdic(text));
    }
    batch
}

/// Applies to marked buffers with space for two details, and sees that a refusal keeps every byte.
fn refusal(
    master: &[u8],
    rows: usize,
    batch: &[u8],
    locals: &[u8],
    year: u64,
    verdicts: usize,
    rejects: usize,
) -> u64 {
    let mut lent_master = master.to_vec();
    let mut lent_verdicts = vec![0x5555; verdicts];
    let mut lent_rejects = vec![0x55; rejects];
    let refusal = apply(
        &mut lent_master,
        rows,
        batch,
        locals,
        year,
        &mut lent_verdicts,
        &mut lent_rejects,
    )
    .expect_err("it is to be refused");
    assert_eq!(lent_master, master);
    assert!(lent_verdicts.iter().all(|&n| n == 0x5555));
    assert!(lent_rejects.iter().all(|&b| b == 0x55));
    refusal.number()
}

#[test]
fn paper_batch_byte_by_byte() {
    let mut master = vec![0xAA; SPACE * ROW];
    let mut verdicts = [7; 3];
    let mut rejects = vec![0xBB; 4 * RECORD];
    let counts = apply(
        &mut master,
        0,
        &paper_batch(),
        &[],
        2007,
        &mut verdicts,
        &mut rejects,
    );
    assert_eq!(
        counts,
        Ok(Counts {
            accepted: 1,
            rejected: 1,
            warned: 0,
            neither: 0,
            rows: 1
        })
    );
    assert_eq!(master, paper_master());
    assert_eq!(verdicts, [0, 1 << 17, 7]);
    assert!(has_code(verdicts[1], 17) && !has_code(verdicts[1], 16));
    let reject = record(&[
        (1, "OH"),
        (6, "123456789"),
        (30, "SMYTH"),
        (65, "00000100"),
        (73, "MN"),
        (228, "17"),
        (240, "SMIT"),
    ]);
    let reject_control = control("000000000000000000000000001000000001000000000000000000");
    assert_eq!(
        rejects,
        [reject, reject_control, vec![0xBB; 2 * RECORD]].concat()
    );
}

#[test]
fn control_record_alone() {
    let mut master = paper_master();
    let mut rejects = vec![0; RECORD];
    let batch = control("0000000000000000000000000000000000000000");
    let counts = apply(&mut master, 1, &batch, &[], 2007, &mut [], &mut rejects);
    assert_eq!(
        counts,
        Ok(Counts {
            accepted: 0,
            rejected: 0,
            warned: 0,
            neither: 0,
            rows: 1
        })
    );
    assert_eq!(master, paper_master());
    assert_eq!(rejects, control(&"0".repeat(54)));
}

#[test]
fn warnings_are_accepted() {
    let mut master = vec![0; SPACE * ROW];
    let mut verdicts = [0; 1];
    let mut rejects = vec![0; 2 * RECORD];
    let a = record(&[
        (1, "OH123"),
        (6, "123456789"),
        (30, "SMITH"),
        (50, "JOHN"),
        (65, "00000025"),
        (73, "AA"),
    ]);
    let batch = [a, control("0000000010000000000000000002500000000000")].concat();
    let counts = apply(
        &mut master,
        0,
        &batch,
        &ebcdic("122124"),
        2007,
        &mut verdicts,
        &mut rejects,
    );
    assert_eq!(
        counts,
        Ok(Counts {
            accepted: 1,
            rejected: 0,
            warned: 1,
            neither: 0,
            rows: 1
        })
    );
    assert_eq!(verdicts, [1 << 51]);
}

#[test]
fn refusals_of_apply_in_order() {
    let master = vec![0xAA; SPACE * ROW];
    let batch = paper_batch();
    let enough = 3 * RECORD;
    assert_eq!(refusal(&master, 0, &batch, &[], 1899, 2, enough), 1);
    assert_eq!(refusal(&master, 0, &batch, &[], u64::MAX, 2, enough), 1);
    assert_eq!(
        refusal(&master, 0, &batch, &ebcdic("002001"), 2007, 2, enough),
        2
    );
    assert_eq!(refusal(&master[1..], 0, &batch, &[], 2007, 2, enough), 3);
    assert_eq!(refusal(&master, SPACE + 1, &batch, &[], 2007, 2, enough), 3);
    assert_eq!(
        refusal(&master, usize::MAX, &batch, &[], 2007, 2, enough),
        3
    );
    assert_eq!(refusal(&master, 1, &batch, &[], 2007, 2, enough), 4);
    assert_eq!(refusal(&master, 0, &[], &[], 2007, 2, enough), 5);
    assert_eq!(refusal(&master, 0, &batch[1..], &[], 2007, 2, enough), 5);
    assert_eq!(
        refusal(&master, 0, &batch[..2 * RECORD], &[], 2007, 2, enough),
        6
    );
    let with = |totals| [&batch[..2 * RECORD], &control(totals)].concat();
    assert_eq!(
        refusal(
            &master,
            0,
            &with("0000000010000000020000000000000000000125"),
            &[],
            2007,
            2,
            enough
        ),
        7
    );
    assert_eq!(
        refusal(
            &master,
            0,
            &with("0000000000000000020000000000000000000126"),
            &[],
            2007,
            2,
            enough
        ),
        8
    );
    assert_eq!(refusal(&[], 0, &batch, &[], 2007, 2, enough), 9);
    assert_eq!(refusal(&master, 0, &batch, &[], 2007, 1, enough), 10);
    assert_eq!(refusal(&master, 0, &batch, &[], 2007, 2, enough - 1), 11);
    // the first that holds is answered
    assert_eq!(refusal(&[], 1, &[], &ebcdic("1"), 0, 0, 0), 1);
    assert_eq!(refusal(&[], 1, &[], &ebcdic("1"), 2007, 0, 0), 2);
    assert_eq!(refusal(&[], 1, &[], &[], 2007, 0, 0), 3);
    assert_eq!(refusal(&[], 0, &[], &[], 2007, 0, 0), 5);
    assert_eq!(refusal(&[], 0, &batch, &[], 2007, 0, 0), 9);
    assert_eq!(refusal(&master, 0, &batch, &[], 2007, 0, 0), 10);
}

#[test]
fn parts_of_the_control_record_in_order() {
    let master = vec![0xAA; SPACE * ROW];
    let answer = |texts: &[(usize, &str)]| {
        refusal(&master, 0, &with_control(texts), &[], 2007, 2, 3 * RECORD)
    };
    let (no_ctl, no_state) = ((3, "CTX"), (1, "ZZ"));
    let (letter, filler) = ((45, "A"), (245, "0"));
    assert_eq!(answer(&[no_ctl]), 6);
    assert_eq!(answer(&[no_state]), 20);
    for column in [6, 14, 15, 23, 24, 34, 35, 45] {
        assert_eq!(answer(&[(column, " ")]), 21);
    }
    for column in [46, 245] {
        assert_eq!(answer(&[(column, "0")]), 21);
    }
    // the first that holds is answered
    assert_eq!(answer(&[no_ctl, no_state]), 6);
    assert_eq!(answer(&[no_ctl, letter]), 6);
    assert_eq!(answer(&[no_ctl, no_state, filler]), 6);
    assert_eq!(answer(&[no_state, letter]), 20);
    assert_eq!(answer(&[no_state, filler]), 20);
    let (count, amount) = ((23, "3"), (45, "6"));
    assert_eq!(answer(&[no_ctl, count, amount]), 6);
    assert_eq!(answer(&[no_state, count, amount]), 20);
    assert_eq!(answer(&[filler, count, amount]), 21);
    assert_eq!(answer(&[count, amount]), 7);
    assert_eq!(answer(&[amount]), 8);
}

#[test]
fn finding() {
    let master = paper_master();
    assert_eq!(find(&master, 1, &ebcdic("OH123456789N")), Ok(0));
    assert_eq!(find(&master, 1, &master[..12]), Ok(0));
    assert_eq!(
        find(&master, 1, &ebcdic("OH123456789A")),
        Err(Refusal::NoSuchRow)
    );
    assert_eq!(
        find(&master, 1, &ebcdic("OH123456789Z")),
        Err(Refusal::UnsoundKey)
    );
    assert_eq!(
        find(&master, 1, &ebcdic("OH123456789")),
        Err(Refusal::UnsoundKey)
    );
    assert_eq!(find(&master, 1, &[]), Err(Refusal::UnsoundKey));
    assert_eq!(find(&master, 2, &[]), Err(Refusal::UnsoundRow));
    assert_eq!(find(&master, 5, &[]), Err(Refusal::WrongMaster));
    assert_eq!(
        find(&[], 0, &ebcdic("OH123456789N")),
        Err(Refusal::NoSuchRow)
    );
}

#[test]
fn reconciling() {
    let master = paper_master();
    let (oh, date) = (ebcdic("OH"), ebcdic("20071231"));
    let mut out = vec![0xCC; 3 * RECORD];
    assert_eq!(reconcile(&master, 1, &oh, &date, &mut out), Ok(1));
    let rec = record(&[
        (1, "RECOH000123456789"),
        (33, "SMITH"),
        (53, "JOHN"),
        (63, "00000025N"),
    ]);
    let rct = record(&[(1, "RCTOH000000000000000001000000001"), (33, "20071231")]);
    assert_eq!(out, [rec, rct, vec![0xCC; RECORD]].concat());
    let mut out = vec![0xCC; RECORD];
    assert_eq!(reconcile(&master, 1, &ebcdic("NY"), &date, &mut out), Ok(0));
    assert_eq!(
        out,
        record(&[(1, "RCTNY000000000000000000000000000"), (33, "20071231")])
    );
}

#[test]
fn refusals_of_reconcile_in_order() {
    let master = paper_master();
    let (oh, date) = (ebcdic("OH"), ebcdic("20071231"));
    let refused = |master: &[u8], rows, state: &[u8], date: &[u8], length: usize| {
        let mut out = vec![0xCC; length];
        let refusal =
            reconcile(master, rows, state, date, &mut out).expect_err("it is to be refused");
        assert!(out.iter().all(|&b| b == 0xCC));
        refusal.number()
    };
    assert_eq!(refused(&master, 5, &[], &[], 0), 3);
    assert_eq!(refused(&master, 2, &[], &[], 0), 4);
    assert_eq!(refused(&master, 1, &[], &[], 0), 12);
    assert_eq!(refused(&master, 1, &ebcdic("OO"), &date, 0), 12);
    assert_eq!(refused(&master, 1, &oh, &[], 0), 13);
    assert_eq!(refused(&master, 1, &oh, &ebcdic("        "), 0), 13);
    assert_eq!(refused(&master, 1, &oh, &ebcdic("20070229"), 0), 13);
    assert_eq!(refused(&master, 1, &oh, &date, 2 * RECORD - 1), 11);
    assert_eq!(refused(&[], 0, &oh, &date, 0), 11);
}

#[test]
fn calls_in_threads() {
    let master = paper_master();
    std::thread::scope(|scope| {
        for _ in 0..8 {
            scope.spawn(|| {
                for _ in 0..200 {
                    paper_batch_byte_by_byte();
                    assert_eq!(find(&master, 1, &ebcdic("OH123456789N")), Ok(0));
                }
            });
        }
    });
}
