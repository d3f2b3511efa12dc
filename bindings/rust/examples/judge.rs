//! A batch of two records, made, judged and shown: what a program that uses the crate looks like.

use fantanolive::layouts::{Detail, Reject, Row};
use fantanolive::{code_text, codes, owned, Record, ROW};

fn detail(
    name: &str,
    first_name: &str,
    dollars: u64,
    kind: &str,
) -> Result<Detail, fantanolive::Unfit> {
    let mut detail = Detail {
        state: "OH".into(),
        ssn: "123456789".into(),
        last_name: name.into(),
        first_name: first_name.into(),
        transaction_type: kind.into(),
        case_type: "N".into(),
        ..Detail::default()
    };
    detail.set_arrearage_number(dollars)?;
    Ok(detail)
}

fn main() -> Result<(), Box<dyn std::error::Error>> {
    let details = [
        detail("SMITH", "JOHN", 25, "A")?,
        detail("SMYTH", "", 100, "M")?,
    ];
    let batch = owned::batch("OH", &details)?;
    let applied = owned::apply(&[], &batch, &[], 2007)?;
    let counts = applied.counts;
    println!("accepted {}, rejected {}", counts.accepted, counts.rejected);
    for (number, &verdict) in (1..).zip(&applied.verdicts) {
        for text in codes(verdict).filter_map(code_text) {
            println!(
                "record {number}: {:02} {}: {}",
                text.number, text.wrong, text.mend
            );
        }
    }
    for row in applied.master.chunks(ROW).filter_map(Row::read) {
        println!("{row:?}");
    }
    let first = applied.rejects.get(..Reject::WIDTH).and_then(Reject::read);
    let reject = first.ok_or("no reject record")?;
    println!(
        "codes {}, stored name {}",
        reject.error_codes, reject.stored_name
    );
    Ok(())
}
