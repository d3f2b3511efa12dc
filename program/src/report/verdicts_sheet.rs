//! A judged batch as a table: a line for each code of each record.

use std::io;

use fantanolive::{code_text, codes, ERRORS, WARNINGS};

use crate::failure::grouped;
use crate::records::columns::detail;
use crate::report::listing::Listing;
use crate::report::sheet::{Put, Sheet, Small};
use crate::report::verdicts::{shown_office, wrong_of, Coded, Verdicts};

pub struct VerdictsSheet<'a> {
    pub verdicts: &'a Verdicts<'a>,
    pub listing: &'a Listing,
}

const HEADS: [&str; 11] = [
    "Record",
    "Key",
    "Transaction type",
    "Last name",
    "First name",
    "Case ID",
    "Local code",
    "Severity",
    "Code",
    "What is wrong",
    "Sent",
];

impl VerdictsSheet<'_> {
    fn put_record(&self, coded: &Coded, put: &mut Put) -> io::Result<()> {
        let form = &self.verdicts.of_details;
        let number = (coded.number + 1).to_string();
        let mut key = String::new();
        self.verdicts.put_key(coded, &mut key);
        let fields = [
            detail::TRANSACTION_TYPE,
            detail::LAST_NAME,
            detail::FIRST_NAME,
            detail::CASE_ID,
            detail::LOCAL_CODE,
        ];
        let fields = fields.map(|field| form.field(&field, coded.detail));
        let mut sent = String::new();
        for code in codes(coded.verdict) {
            let severity = match codes(WARNINGS).any(|warning| warning == code) {
                true => "warning",
                false => "error",
            };
            let shown = format!("{code:02}");
            sent.clear();
            self.verdicts.put_sent_words(code, coded, &mut sent);
            let [kind, last, first, case, office] = fields.each_ref().map(String::as_str);
            let wrong = wrong_of(code);
            put(&[
                &number, &key, kind, last, first, case, office, severity, &shown, wrong, &sent,
            ])?;
        }
        Ok(())
    }
}

impl Sheet for VerdictsSheet<'_> {
    fn caption(&self) -> String {
        let count = self.verdicts.count(ERRORS | WARNINGS);
        let words = ("record with a code", "records with a code");
        self.listing.caption(count, words)
    }

    fn before(&self) -> Vec<Small<'_>> {
        let offices = match self.listing.by_office {
            true => self.verdicts.offices(),
            false => Vec::new(),
        };
        if offices.is_empty() {
            return Vec::new();
        }
        let put_lines = move |put: &mut Put| {
            offices.iter().try_for_each(|(office, errors, warnings)| {
                let counts = [errors, warnings].map(|count| grouped(*count));
                put(&[&shown_office(office), &counts[0], &counts[1]])
            })
        };
        vec![Small {
            caption: "By local office".to_string(),
            heads: &["Office", "To fix", "Warned"],
            put_lines: Box::new(put_lines),
        }]
    }

    fn heads(&self) -> &'static [&'static str] {
        &HEADS
    }

    fn put_lines(&self, put: &mut Put) -> io::Result<()> {
        let first = self
            .verdicts
            .for_files(self.listing, self.listing.by_office);
        let put = |coded: &Coded| self.put_record(coded, put);
        self.verdicts.each(first, put)
    }
}

/// The codes with how often they stand, and what to do, for a chart.
pub fn chart_of(verdicts: &Verdicts) -> Vec<(String, u64, String)> {
    let counts = verdicts.counts().into_iter();
    let bar = |(code, count)| {
        let fix = code_text(code).map_or("", |text| text.mend);
        (
            format!("{code:02} {}", wrong_of(code)),
            count,
            fix.to_string(),
        )
    };
    counts.map(bar).collect()
}
