//! Fields that have one character throughout: blank as a whole, all zeros, all nines.

use generator::rng::Rng;
use generator::text::SPACE;

use crate::calls::{Argument, Content};
use crate::case::{Case, Value};
use crate::fields::layout;
use crate::room::row_count;
use crate::shrink::mend;
use crate::text::record_width;

const CHARACTERS: [u8; 9] = [SPACE, SPACE, SPACE, SPACE, 0xF0, 0xF0, 0xF9, 0x00, 0xC1];

/// The buffers of records that a call reads, by their places.
fn read(case: &Case) -> Vec<(usize, Content)> {
    let arguments = case.call().arguments.iter().enumerate();
    let records = arguments.filter_map(|(at, argument)| match argument {
        Argument::Buffer {
            name,
            content:
                content @ (Content::Rows
                | Content::Batch
                | Content::Lines
                | Content::Contacts
                | Content::Keys),
            written,
            ..
        } if !written || matches!(*name, "master" | "table") => Some((at, *name, *content)),
        _ => None,
    });
    let is_there = |(at, name, content): &(usize, &str, Content)| match &case.values[*at] {
        Value::Bytes(_) if *name == "master" => row_count(case) > 0,
        Value::Bytes(_) if *name == "table" => case.count("count") > 0,
        Value::Bytes(bytes) => bytes.len() >= record_width(*content),
        _ => false,
    };
    let there = records.filter(is_there);
    there.map(|(at, _, content)| (at, content)).collect()
}

/// Fills a field of one of the records with one character; totals are mostly made right again.
pub fn whole_field(rng: &mut Rng, case: &mut Case) {
    let buffers = read(case);
    if buffers.is_empty() {
        return;
    }
    let (at, content) = rng.pick(&buffers);
    let rows = match case.call().arguments[at].name() {
        "master" => row_count(case),
        "table" => case.count("count") as usize,
        _ => usize::MAX,
    };
    let Value::Bytes(bytes) = &mut case.values[at] else {
        return;
    };
    let width = record_width(content);
    let count = (bytes.len() / width).min(rows);
    let one = rng.below(count);
    let is_last = one + 1 == count;
    let record = &mut bytes[one * width..(one + 1) * width];
    let fields = layout(content, record, is_last);
    if fields.is_empty() {
        return;
    }
    let field = &fields[rng.below(fields.len())];
    record[field.first - 1..field.last].fill(rng.pick(&CHARACTERS));
    let has_totals = matches!(content, Content::Batch | Content::Lines);
    if has_totals && !is_last && rng.percent(85) {
        mend(content, bytes);
    }
}
