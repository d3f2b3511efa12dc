//! Two batches into one, through the wrapper: empty and full inputs, totals at their limits, each refusal of each input with
//! the other one faulty too, and that the merged batch has the effect of the two one behind the other.

mod sparse;
mod text;

use fantanolive::{apply, merge, totals, Refusal, MAX_RECORDS, RECORD, ROW};
use sparse::Sparse;
use text::{ebcdic, record};

fn detail(ssn: u64, kind: &str, case_type: &str, amount: u64, name: &str) -> Vec<u8> {
    record(&[
        (1, "OH"),
        (6, &format!("{ssn:09}")),
        (30, name),
        (50, "JOHN"),
        (65, &format!("{amount:08}")),
        (73, kind),
        (74, case_type),
    ])
}

fn control(state: &str, counts: [u64; 2], amounts: [u64; 2]) -> Vec<u8> {
    let [tanf, non_tanf] = counts;
    let [tanf_amount, non_tanf_amount] = amounts;
    let stated = format!("{tanf:09}{non_tanf:09}{tanf_amount:011}{non_tanf_amount:011}");
    record(&[(1, state), (3, "CTL"), (6, &stated)])
}

/// A batch with a right control record.
fn batch(details: &[Vec<u8>]) -> Vec<u8> {
    let details = details.concat();
    let t = totals(&[&details[..], &[0; RECORD]].concat()).expect("details of 245 bytes");
    let last = control(
        "OH",
        [t.tanf_count, t.non_tanf_count],
        [t.tanf_amount, t.non_tanf_amount],
    );
    [details, last].concat()
}

/// A batch of n details of one kind.
fn many(n: usize, case_type: &str, amount: u64) -> Vec<u8> {
    batch(&vec![
        detail(123_456_789, "A", case_type, amount, "SMITH");
        n
    ])
}

/// The merged batch, written to an output that is three bytes longer.
fn merged(first: &[u8], second: &[u8]) -> Result<Vec<u8>, Refusal> {
    let mut out = vec![0xEE; first.len() + second.len()];
    let records = merge(first, second, &mut out)?;
    let length = usize::try_from(records).expect("it fits") * RECORD;
    assert_eq!(length, first.len() + second.len() - RECORD);
    assert!(out[length..].iter().all(|&b| b == 0xEE));
    out.truncate(length);
    Ok(out)
}

#[test]
fn details_of_both_and_summed_totals() {
    let first = [
        detail(111_223_333, "A", "A", 100, "SMITH"),
        detail(111_223_334, "M", "N", 7, "SMITH"),
    ];
    let second = [
        detail(111_223_335, "D", "A", 9, "JONES"),
        detail(111_223_333, "M", "A", 11, "SMITH"),
        detail(111_223_336, "A", "N", 50, "JONES"),
    ];
    let whole = [
        [first.concat(), second.concat()].concat(),
        control("OH", [3, 2], [111, 57]),
    ]
    .concat();
    assert_eq!(merged(&batch(&first), &batch(&second)), Ok(whole));
    let empty = batch(&[]);
    let one = batch(&first);
    assert_eq!(merged(&empty, &one), Ok(one.clone()));
    assert_eq!(merged(&one, &empty), Ok(one));
    assert_eq!(merged(&empty, &empty), Ok(empty));
}

#[test]
fn more_details_than_16_bits_count() {
    let half = many(32_768, "N", 1);
    let rest = many(32_769, "A", 2);
    let whole = merged(&half, &rest).expect("65,537 details");
    let last = control("OH", [32_769, 32_768], [65_538, 32_768]);
    assert_eq!(whole[whole.len() - RECORD..], last);
    assert_eq!(merged(&whole, &batch(&[])), Ok(whole.clone()));
    assert_eq!(merged(&batch(&[]), &whole), Ok(whole));
}

/// A batch at the limit passes 32, and one detail more doesn't; details of zeros count in no total.
#[test]
fn most_details() {
    let mut over = Sparse::new(RECORD * (MAX_RECORDS + 1));
    over[RECORD * MAX_RECORDS..].copy_from_slice(&control("OH", [0, 0], [0, 0]));
    let full = &over[RECORD..];
    let one = many(1, "N", 1);
    let merged = |first: &[u8], second: &[u8]| merge(first, second, &mut []);
    assert_eq!(merged(full, &batch(&[])), Err(Refusal::ShortBatch));
    assert_eq!(merged(full, &one), Err(Refusal::CannotMerge));
    assert_eq!(merged(&one, full), Err(Refusal::CannotMerge));
    assert_eq!(merged(&over, &one), Err(Refusal::WrongBatch));
    assert_eq!(merged(&one, &over), Err(Refusal::WrongBatch));
}

#[test]
fn amounts_of_eleven_digits() {
    // 1,000 details of 99,999,999 and one of 999 make 99,999,999,999
    for case_type in ["A", "N"] {
        let large = many(1_000, case_type, 99_999_999);
        let fits = many(1, case_type, 999);
        let whole = merged(&large, &fits).expect("eleven digits");
        let stated = totals(&whole).expect("a batch");
        let amount = stated.tanf_amount + stated.non_tanf_amount;
        assert_eq!(amount, 99_999_999_999);
        let over = many(1, case_type, 1_000);
        assert_eq!(merged(&large, &over), Err(Refusal::CannotMerge));
        assert_eq!(merged(&over, &large), Err(Refusal::CannotMerge));
    }
    // each amount by itself
    let tanf = many(1_000, "A", 99_999_999);
    let non_tanf = many(1_000, "N", 99_999_999);
    assert!(merged(&tanf, &non_tanf).is_ok());
}

/// A batch that gets a refusal, and no other before it.
fn faulty(number: u64) -> Vec<u8> {
    let details = detail(123_456_789, "A", "N", 25, "SMITH");
    let with = |last: Vec<u8>| [details.clone(), last].concat();
    let mut filler = control("OH", [0, 1], [0, 25]);
    filler[RECORD - 1] = 0;
    match number {
        5 => details[1..].to_vec(),
        6 => details.clone(),
        20 => with(control("XX", [0, 1], [0, 25])),
        21 => with(filler),
        7 => with(control("OH", [0, 2], [0, 25])),
        8 => with(control("OH", [0, 1], [0, 24])),
        _ => unreachable!(),
    }
}

fn refused(first: &[u8], second: &[u8], out: usize) -> u64 {
    let mut out = vec![0xEE; out];
    let answer = merge(first, second, &mut out);
    assert!(out.iter().all(|&b| b == 0xEE));
    answer.expect_err("it is to be refused").number()
}

#[test]
fn the_first_wholly_before_the_second() {
    let numbers = [5, 6, 20, 21, 7, 8];
    let good = many(1, "N", 25);
    let other = [&good[..RECORD], &control("AL", [0, 1], [0, 25])].concat();
    for number in numbers {
        let bad = faulty(number);
        assert_eq!(refused(&bad, &good, 0), number);
        assert_eq!(refused(&good, &bad, 0), number);
        assert_eq!(refused(&other, &bad, 0), number);
        for second in numbers {
            assert_eq!(refused(&bad, &faulty(second), 0), number);
        }
    }
    assert_eq!(refused(&good, &other, 0), 32);
    assert_eq!(refused(&good, &good, 3 * RECORD - 1), 33);
    assert_eq!(refused(&good, &good, 0), 33);
    assert_eq!(merge(&good, &good, &mut [0; 3 * RECORD]), Ok(3));
}

/// What a batch leaves of a master with a row count, and its verdicts with the four characters of 17.
fn applied(master: &mut [u8], rows: u64, batch: &[u8]) -> (u64, Vec<(u64, Vec<u8>)>) {
    let details = batch.len() / RECORD - 1;
    let mut verdicts = vec![0; details];
    let mut rejects = vec![0; (details + 1) * RECORD];
    let rows = usize::try_from(rows).expect("it fits");
    let counts = apply(
        master,
        rows,
        batch,
        &ebcdic("001"),
        2007,
        &mut verdicts,
        &mut rejects,
    )
    .expect("it is carried out");
    let mut rejects = rejects.chunks(RECORD);
    let named = verdicts.into_iter().map(|verdict| {
        let reject = (verdict != 0).then(|| rejects.next().expect("a reject record"));
        let name = reject.filter(|_| verdict & (1 << 17) != 0);
        (verdict, name.map_or(vec![], |r| r[239..243].to_vec()))
    });
    (counts.rows, named.collect())
}

#[test]
fn the_effect_of_both() {
    let first = batch(&[
        detail(111_223_333, "A", "A", 100, "SMITH"),
        detail(111_223_334, "D", "N", 0, "BROWN"),
        detail(111_223_334, "A", "N", 70, "SMITH"),
        detail(111_223_334, "B", "N", 0, "BROWN"),
    ]);
    let second = batch(&[
        detail(111_223_333, "M", "A", 11, "JONES"),
        detail(111_223_335, "A", "N", 50, "JONES"),
        detail(111_223_333, "D", "A", 0, "SMITH"),
    ]);
    let whole = merged(&first, &second).expect("they can be merged");
    let mut one = vec![0xEE; 6 * ROW];
    let (rows, mut verdicts) = applied(&mut one, 0, &first);
    let (rows, behind) = applied(&mut one, rows, &second);
    verdicts.extend(behind);
    let mut other = vec![0xDD; 7 * ROW];
    assert_eq!(applied(&mut other, 0, &whole), (rows, verdicts));
    let length = usize::try_from(rows).expect("it fits") * ROW;
    assert_eq!(one[..length], other[..length]);
}
