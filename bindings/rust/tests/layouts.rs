//! Rows and records as structs: the paper's example through them, numbers and what doesn't fit, and that no SSN is shown.

mod text;

use fantanolive::layouts::{Control, Detail, Line, Row};
use fantanolive::{apply, Record, Unfit, RECORD, ROW};
use text::paper_batch;

fn detail(name: &str, dollars: u64, kind: &str) -> Detail {
    let mut detail = Detail {
        state: "OH".into(),
        ssn: "123456789".into(),
        last_name: name.into(),
        transaction_type: kind.into(),
        case_type: "N".into(),
        ..Detail::default()
    };
    detail.set_arrearage_number(dollars).expect("eight digits");
    detail
}

/// The paper's batch, made of structs.
fn made_batch() -> Vec<u8> {
    let mut add = detail("SMITH", 25, "A");
    add.first_name = "JOHN".into();
    let mut control = Control {
        state: "OH".into(),
        mark: "CTL".into(),
        ..Control::default()
    };
    control.set_tanf_records_number(0).expect("nine digits");
    control.set_non_tanf_records_number(2).expect("nine digits");
    control.set_tanf_amount_number(0).expect("eleven digits");
    control
        .set_non_tanf_amount_number(125)
        .expect("eleven digits");
    let records = [
        add.write(),
        detail("SMYTH", 100, "M").write(),
        control.write(),
    ];
    records
        .into_iter()
        .flat_map(|record| record.expect("fits"))
        .collect()
}

#[test]
fn the_papers_batch() {
    let batch = made_batch();
    assert_eq!(batch, paper_batch());
    let mut master = [0; ROW];
    let counts = apply(
        &mut master,
        0,
        &batch,
        &[],
        2007,
        &mut [0; 2],
        &mut [0; 3 * RECORD],
    );
    assert_eq!(counts.map(|counts| counts.rows), Ok(1));
    let row = Row::read(&master).expect("a row");
    assert_eq!(
        (&row.last_name[..], row.arrearage_number()),
        ("SMITH", Some(25))
    );
    assert_eq!(
        (&row.cents[..], row.exclusions, &row.status[..]),
        ("00", 0, "")
    );
    assert_eq!(row.write(), Ok(master.to_vec()));
}

#[test]
fn numbers_and_amounts() {
    let mut line = Line::default();
    assert_eq!((line.collection_cents(), line.fee_cents()), (None, None));
    for (text, cents) in [
        ("00000001001", Some(1001)),
        ("0000000100A", Some(1001)),
        ("0000000100{", Some(1000)),
        ("0000000100J", None),
        ("000000A1001", None),
        ("0000001001", None),
        ("é0000000100", None),
    ] {
        line.collection = text.into();
        assert_eq!(line.collection_cents(), cents, "{text}");
    }
    assert_eq!(line.set_fee_cents(99_999), Ok(()));
    let unfit = Unfit {
        field: "fee",
        width: 5,
    };
    assert_eq!(line.set_fee_cents(100_000), Err(unfit));
    assert_eq!((&line.fee[..], line.fee_cents()), ("99999", Some(99_999)));
    assert_eq!(unfit.to_string(), "fee does not fit its 5 columns");
}

#[test]
fn what_does_not_fit() {
    let mut row = Row::default();
    assert_eq!(row.write().map(|bytes| bytes.len()), Ok(ROW));
    for city in ["A CITY WITH A NAME TOO LONG", "Ł", "日"] {
        row.city = city.into();
        let unfit = row.write().expect_err("doesn't fit");
        assert_eq!((unfit.field, unfit.width), ("city", 25));
    }
    assert_eq!(Row::read(&[0x40; ROW - 1]), None);
    assert_eq!(Row::read(&[0x40; ROW + 1]), None);
    assert_eq!(Row::read(&[]), None);
}

#[test]
fn no_ssn_is_shown() {
    let mut row = Row {
        state: "OH".into(),
        ssn: "123456789".into(),
        case_id: "ID 123-45-6789".into(),
        city: "987654321".into(),
        exclusions: 0b10_0010,
        ..Row::default()
    };
    row.set_arrearage_number(25).expect("eight digits");
    let shown = format!("{row:?}");
    assert_eq!(
        shown,
        "Row { state: \"OH\", ssn: \"*****6789\", case_id: \"ID ***-**-6789\", arrearage: \"00000025\", \
         city: \"*****4321\", exclusions: \"RET,PAS\" }"
    );
}
