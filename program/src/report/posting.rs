//! What a posting lists: why lines are not posted and what to do, the lines, and the cases that were closed.

use std::io::{self, Write};

use fantanolive::ROW;

use crate::failure::counted;
use crate::records::amounts::money;
use crate::records::columns::row;
use crate::records::field::Form;
use crate::records::line_reasons::Reason;
use crate::records::money::{ClosedCase, Money};
use crate::report::json::Json;
use crate::report::listed::Listed;
use crate::report::listing::Listing;
use crate::report::screen::{Screen, Style};
use crate::report::sheet::{Put, Sheet, Small};

pub struct Posting<'a> {
    pub listed: Listed<'a>,
    pub reasons: &'a [Reason],
    pub closed: &'a [ClosedCase],
    pub money: &'a Money,
    /// The rows behind the file.
    pub rows: &'a [u8],
    pub form: &'a Form,
    pub listing: &'a Listing,
}

const CLOSED: (&str, &str) = ("case closed", "cases closed");

/// How many lines have each reason, the most frequent first, with what to do.
pub fn counts_of(reasons: &[Reason]) -> Vec<(&'static str, u64, &'static str)> {
    let mut counts: Vec<(&str, u64, &str)> = Vec::new();
    for reason in reasons {
        let name = reason.name();
        match counts.iter_mut().find(|(other, ..)| *other == name) {
            Some((_, count, _)) => *count += 1,
            None => counts.push((name, 1, reason.fix())),
        }
    }
    counts.sort_by_key(|(_, count, _)| std::cmp::Reverse(*count));
    counts
}

impl Posting<'_> {
    pub fn put_text<W: Write>(&self, screen: &mut Screen<W>) -> io::Result<()> {
        let reasons = counts_of(self.reasons);
        if !reasons.is_empty() {
            screen.plain("")?;
            screen.line(Style::Heading, "Reasons, the most frequent first")?;
        }
        for (name, count, fix) in reasons {
            screen.plain(&format!("{name}: {}", counted(count, "line")))?;
            screen.wrapped(Style::Plain, "   to fix: ", fix, 11)?;
        }
        self.put_closed(screen)?;
        self.listed.put_text(screen)
    }

    /// The first cases that were closed, those with excess before the others.
    fn put_closed<W: Write>(&self, screen: &mut Screen<W>) -> io::Result<()> {
        let count = self.closed.len();
        if count == 0 {
            return Ok(());
        }
        self.listing.put_heading(screen, count, CLOSED)?;
        let mut text = String::new();
        for case in self.closed.iter().take(self.listing.most) {
            text.clear();
            self.put_key(case, &mut text);
            text.push_str("  ");
            self.put_name(case, &mut text);
            if case.excess > 0 {
                text.push_str("  excess ");
                text.push_str(&money(case.excess));
            }
            screen.plain(&text)?;
        }
        self.listing.put_rest(screen, count)
    }

    pub fn put_json<W: Write>(&self, json: &mut Json<W>) -> io::Result<()> {
        json.name("reasons")?;
        json.begin_array()?;
        for (name, count, fix) in counts_of(self.reasons) {
            json.begin_object()?;
            json.text_of("reason", name)?;
            json.number_of("lines", count)?;
            json.text_of("to_fix", fix)?;
            json.end_object()?;
        }
        json.end_array()?;
        json.name("closed")?;
        json.begin_array()?;
        let mut text = String::new();
        for case in self.closed.iter().take(self.listing.most_in_files) {
            json.begin_object()?;
            text.clear();
            self.put_key(case, &mut text);
            json.text_of("key", &text)?;
            text.clear();
            self.put_name(case, &mut text);
            json.text_of("name", &text)?;
            json.name("excess")?;
            json.cents(case.excess)?;
            json.end_object()?;
        }
        json.end_array()?;
        self.listed.put_json(json)
    }

    fn row(&self, case: &ClosedCase) -> &[u8] {
        &self.rows[case.row as usize * ROW..][..ROW]
    }

    fn put_key(&self, case: &ClosedCase, out: &mut String) {
        let parts = [row::STATE, row::SSN, row::CASE_TYPE];
        self.form.put_key(&parts, self.row(case), out);
    }

    fn put_name(&self, case: &ClosedCase, out: &mut String) {
        let row = self.row(case);
        let (last, first) = (&row::LAST_NAME, &row::FIRST_NAME);
        self.form.put_name(last, first, row, out);
    }
}

impl Sheet for Posting<'_> {
    fn before(&self) -> Vec<Small<'_>> {
        if self.closed.is_empty() {
            return Vec::new();
        }
        let put_lines = |put: &mut Put| {
            let (mut key, mut name) = (String::new(), String::new());
            for case in self.closed.iter().take(self.listing.most_in_files) {
                key.clear();
                name.clear();
                self.put_key(case, &mut key);
                self.put_name(case, &mut name);
                put(&[&key, &name, &money(case.excess)])?;
            }
            Ok(())
        };
        vec![Small {
            caption: self.listing.caption(self.closed.len(), CLOSED),
            heads: &["Key", "Name", "Excess"],
            put_lines: Box::new(put_lines),
        }]
    }

    fn caption(&self) -> String {
        self.listed.caption()
    }

    fn heads(&self) -> &'static [&'static str] {
        self.listed.heads()
    }

    fn put_lines(&self, put: &mut Put) -> io::Result<()> {
        self.listed.put_lines(put)
    }

    fn put_feet(&self, put: &mut Put) -> io::Result<()> {
        for case in self.closed.iter().take(self.listing.most_in_files) {
            let row = self.row(case);
            let fields = [
                row::STATE,
                row::SSN,
                row::CASE_TYPE,
                row::LAST_NAME,
                row::FIRST_NAME,
            ];
            let [state, ssn, kind, last, first] = fields.map(|field| self.form.field(&field, row));
            let excess = format!("excess {}", money(case.excess));
            put(&[
                "closed", &state, &ssn, &kind, &last, &first, "", "", &excess, "",
            ])?;
        }
        let posted = [self.money.collected, self.money.adjusted];
        let not_posted = self.money.not_posted;
        let in_file = [posted[0] + not_posted[0], posted[1] + not_posted[1]];
        let sums = [
            ("not posted", not_posted),
            ("posted", posted),
            ("in the file", in_file),
        ];
        for (name, sums) in sums {
            let [collected, adjusted] = sums.map(money);
            put(&[name, "", "", "", "", "", &collected, &adjusted, "", ""])?;
        }
        Ok(())
    }
}
