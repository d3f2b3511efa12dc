//! A case made smaller as long as the two engines part in the same way: details, rows, codes, lines and keys left out, buffers
//! emptied, then fields made blank or as simple as they can be. Names are made the same first, where that keeps the difference.

use std::ops::Range;

use generator::records::{totals, Record, RECORD};
use generator::rows::ROW;
use generator::text::{digits, number, put};

use crate::calls::{Argument, Content};
use crate::case::{bytes_of, Case, Value};
use crate::fields::{layout, Field};
use crate::journals::forget_place;
use crate::room::{fitted, row_count};
use crate::text::record_width;

const SPACE: u8 = 0x40;
const ZERO: u8 = 0xF0;
const DELETED: u8 = 0xC4;
/// How many cases are tried at most, and how many bytes they lend in all. Not a time: what is found is the same on a busy machine.
const MOST_TRIES: usize = 20_000;
const MOST_LENT: usize = 1_000_000_000;
/// Of how many records any two are tried, and of how many all numbers of them.
const FEW: usize = 8;
const MANY: usize = 256;
/// Columns 30 to 49 of a detail.
const LAST_NAME: Range<usize> = 29..49;

/// The columns of the totals in a last record, each with its width.
fn total_columns(content: Content) -> &'static [(usize, usize)] {
    match content {
        Content::Batch => &[(6, 9), (15, 9), (24, 11), (35, 11)],
        Content::Lines => &[(35, 15), (50, 15)],
        _ => &[],
    }
}

/// Writes the totals that a batch's details have into its control record.
pub fn mend_totals(batch: &mut [u8]) {
    let Some(start) = batch.len().checked_sub(RECORD) else {
        return;
    };
    let (details, control) = batch.split_at_mut(start);
    let details: Vec<Record> = details
        .chunks_exact(RECORD)
        .map(|record| record.try_into().unwrap_or([SPACE; RECORD]))
        .collect();
    let columns = total_columns(Content::Batch);
    for (total, &(column, width)) in totals(&details).into_iter().zip(columns) {
        put(control, column, &digits(total, width));
    }
}

/// The same of the last record of a collection file.
fn mend_lines(file: &mut [u8]) {
    let Some(start) = file.len().checked_sub(240) else {
        return;
    };
    let (lines, last) = file.split_at_mut(start);
    let above = |field: &[u8]| {
        let tens = number(&field[..10]);
        let is_last = matches!(field[10], 0xF0..=0xF9 | 0xC0..=0xC9);
        is_last && tens.is_some_and(|tens| tens > 0 || field[10] & 15 > 0)
    };
    let count = |first: usize| {
        let lines = lines.chunks_exact(240);
        lines
            .filter(|line| above(&line[first - 1..first + 10]))
            .count() as u64
    };
    let columns = total_columns(Content::Lines);
    for (total, &(column, width)) in [count(87), count(76)].into_iter().zip(columns) {
        put(last, column, &digits(total, width));
    }
}

/// The same of either.
pub fn mend(content: Content, bytes: &mut [u8]) {
    match content {
        Content::Batch => mend_totals(bytes),
        Content::Lines => mend_lines(bytes),
        _ => {}
    }
}

/// Makes the totals right that were right before; answers whether all were.
fn mend_as(content: Content, before: &[u8], bytes: &mut [u8]) -> bool {
    let (mut right_before, mut right) = (before.to_vec(), bytes.to_vec());
    mend(content, &mut right_before);
    mend(content, &mut right);
    let last = |bytes: &[u8]| bytes.len().checked_sub(record_width(content));
    let (Some(old), Some(new)) = (last(before), last(bytes)) else {
        return before == right_before;
    };
    let mut all = true;
    for &(column, width) in total_columns(content) {
        let old = old + column - 1..old + column - 1 + width;
        let new = new + column - 1..new + column - 1 + width;
        match before[old.clone()] == right_before[old] {
            true => bytes[new.clone()].copy_from_slice(&right[new]),
            false => all = false,
        }
    }
    all
}

/// The smallest case so far, and what was tried.
pub struct Shrinker<'a> {
    keeps: &'a mut dyn FnMut(&Case) -> bool,
    case: Case,
    tries: usize,
    lent: usize,
}

/// The smallest case that `keeps` still takes.
pub fn shrink(case: &Case, keeps: &mut dyn FnMut(&Case) -> bool) -> Case {
    let mut shrinker = Shrinker {
        keeps,
        case: case.clone(),
        tries: 0,
        lent: 0,
    };
    for _ in 0..6 {
        let before = shrinker.case.clone();
        shrinker.share_names();
        shrinker.leave_out();
        shrinker.empty();
        shrinker.simplify();
        if shrinker.case == before || shrinker.is_over() {
            break;
        }
    }
    shrinker.case
}

/// The number that goes with a buffer of records, if one does.
fn counter(name: &str) -> Option<&'static str> {
    match name {
        "master" => Some("rows"),
        "table" => Some("count"),
        _ => None,
    }
}

impl Shrinker<'_> {
    fn is_over(&self) -> bool {
        self.tries >= MOST_TRIES || self.lent >= MOST_LENT
    }

    /// Takes a candidate where the difference is the same.
    fn take(&mut self, candidate: Case) -> bool {
        if candidate == self.case || self.is_over() {
            return false;
        }
        self.tries += 1;
        self.lent += candidate.size();
        let kept = (self.keeps)(&candidate);
        if kept {
            self.case = candidate;
        }
        kept
    }

    /// Takes a candidate with those totals made right that were so before, or as it is where some weren't.
    fn take_mended(&mut self, candidate: Case, argument: usize, content: Content) -> bool {
        let mut mended = candidate.clone();
        let before = bytes_of(&self.case.values[argument]);
        let all = match &mut mended.values[argument] {
            Value::Bytes(bytes) => mend_as(content, &before, bytes),
            _ => true,
        };
        self.take(mended) || !all && self.take(candidate)
    }

    fn buffers(&self) -> Vec<(usize, &'static str, Content, bool)> {
        let arguments = self.case.call().arguments.iter().enumerate();
        arguments
            .filter_map(|(at, argument)| match argument {
                Argument::Buffer {
                    name,
                    content,
                    width: 1,
                    written,
                } => Some((at, *name, *content, *written)),
                _ => None,
            })
            .collect()
    }

    /// One last name for all details of a batch, so that those which only changed it can be left out.
    fn share_names(&mut self) {
        for (at, name, content, _) in self.buffers() {
            let details = self.records(at, name, content);
            if content == Content::Batch && details <= FEW {
                let mut from = 0..details;
                from.any(|from| self.take(self.named_as(at, from)));
            }
        }
    }

    /// The case with the last name of one detail in all of them.
    fn named_as(&self, at: usize, from: usize) -> Case {
        let mut candidate = self.case.clone();
        if let Value::Bytes(bytes) = &mut candidate.values[at] {
            let details = bytes.len() / RECORD - 1;
            let last_name = bytes[from * RECORD..][LAST_NAME].to_vec();
            for detail in bytes.chunks_exact_mut(RECORD).take(details) {
                detail[LAST_NAME].copy_from_slice(&last_name);
            }
        }
        candidate
    }

    /// Records, those of a master or table last: a detail may be needed only where its row isn't there.
    fn leave_out(&mut self) {
        let mut buffers = self.buffers();
        buffers.sort_by_key(|(_, name, ..)| counter(name).is_some());
        for (at, name, content, written) in buffers {
            let is_output = written && counter(name).is_none();
            let is_single = matches!(name, "row" | "wanted" | "key" | "state" | "date");
            if is_output || is_single || content == Content::Journal {
                continue;
            }
            self.leave_out_others(at, name, content);
            self.leave_out_last(at, name, content);
            let mut step = self.records(at, name, content).next_power_of_two();
            while step > 0 {
                self.leave_out_by(step, at, name, content);
                step /= 2;
            }
            self.leave_out_pairs(at, name, content);
            self.leave_out_and_move(at, name, content);
            self.leave_out_and_delete(at, name, content);
        }
    }

    /// Stretches of so many records, one behind the other.
    fn leave_out_by(&mut self, step: usize, at: usize, name: &str, content: Content) {
        let mut from = 0;
        while from < self.records(at, name, content) && !self.is_over() {
            let until = (from + step).min(self.records(at, name, content));
            if !self.without(at, name, content, from, until) {
                from += step;
            }
        }
    }

    /// All but one of several records.
    fn leave_out_others(&mut self, at: usize, name: &str, content: Content) {
        let all = self.records(at, name, content);
        for one in 0..all {
            if !(2..=MANY).contains(&self.records(at, name, content)) || self.is_over() {
                return;
            }
            let behind = self.gone(&self.case, at, name, content, one + 1..all);
            let alone = self.gone(&behind, at, name, content, 0..one);
            let _ = self.take_mended(fitted(&self.case, &alone), at, content)
                || self.take_mended(alone, at, content);
        }
    }

    /// All but the first of many records, as few of them as it goes: what a number of records brings about may not be there between
    /// that number and a larger one.
    fn leave_out_last(&mut self, at: usize, name: &str, content: Content) {
        let all = self.records(at, name, content);
        if (FEW + 1..=MANY).contains(&all) {
            let mut kept = 0..all;
            kept.any(|kept| self.without(at, name, content, kept, all));
        }
    }

    /// Any two of few records, one before the other.
    fn leave_out_pairs(&mut self, at: usize, name: &str, content: Content) {
        let mut first = 0;
        while first < self.records(at, name, content) && self.records(at, name, content) <= FEW {
            let mut second = first + 1;
            let mut left_out = false;
            while second < self.records(at, name, content) && !left_out && !self.is_over() {
                let gone = self.gone(&self.case, at, name, content, second..second + 1);
                let gone = self.gone(&gone, at, name, content, first..first + 1);
                left_out = self.take_mended(fitted(&self.case, &gone), at, content)
                    || self.take_mended(gone, at, content);
                second += 1;
            }
            first += usize::from(!left_out);
            if self.is_over() {
                return;
            }
        }
    }

    /// One of few details, with another put elsewhere.
    fn leave_out_and_move(&mut self, at: usize, name: &str, content: Content) {
        let all = self.records(at, name, content);
        if all > FEW || content != Content::Batch {
            return;
        }
        let tries =
            (0..all.pow(3)).map(|number| (number / all / all, number / all % all, number % all));
        for (gone, moved, to) in tries.filter(|&(gone, moved, to)| gone != moved && moved != to) {
            if self.records(at, name, content) < all {
                return;
            }
            let mut candidate = self.gone(&self.case, at, name, content, gone..gone + 1);
            if let Value::Bytes(bytes) = &mut candidate.values[at] {
                let last = all - 2;
                let moved = moved - usize::from(gone < moved);
                let detail: Vec<u8> = bytes.drain(moved * RECORD..(moved + 1) * RECORD).collect();
                let to = to.min(last) * RECORD;
                bytes.splice(to..to, detail);
            }
            let _ = self.take_mended(fitted(&self.case, &candidate), at, content);
        }
    }

    /// One of few details, with a row deleted from the beginning.
    fn leave_out_and_delete(&mut self, at: usize, name: &str, content: Content) {
        let all = self.records(at, name, content);
        if all > FEW || content != Content::Batch || !self.case.has("rows") {
            return;
        }
        let rows = row_count(&self.case).min(FEW);
        for (gone, row) in (0..all * rows).map(|number| (number / rows, number % rows)) {
            if self.records(at, name, content) < all {
                return;
            }
            let mut candidate = self.gone(&self.case, at, name, content, gone..gone + 1);
            let row = &mut candidate.bytes_mut("master")[row * ROW..(row + 1) * ROW];
            put(row, 66, &[ZERO; 8]);
            put(row, 196, &[DELETED, ZERO, ZERO]);
            let _ = self.take_mended(fitted(&self.case, &candidate), at, content);
        }
    }

    /// How many records may be left out.
    fn records(&self, at: usize, name: &str, content: Content) -> usize {
        let Value::Bytes(bytes) = &self.case.values[at] else {
            return 0;
        };
        let all = bytes.len() / record_width(content);
        match (counter(name), content) {
            (Some(count), _) => all.min(self.case.count(count) as usize),
            (_, Content::Batch | Content::Lines) => all.saturating_sub(1),
            _ => all,
        }
    }

    /// Tries to leave out the records from one number to another.
    fn without(
        &mut self,
        at: usize,
        name: &str,
        content: Content,
        from: usize,
        until: usize,
    ) -> bool {
        let candidate = self.gone(&self.case, at, name, content, from..until);
        let is_large = self.records(at, name, content) > MANY;
        let fitted = fitted(&self.case, &candidate);
        self.take_mended(fitted, at, content)
            || !is_large && self.take_mended(candidate, at, content)
    }

    /// A case without some of its records.
    fn gone(
        &self,
        case: &Case,
        at: usize,
        name: &str,
        content: Content,
        records: Range<usize>,
    ) -> Case {
        let width = record_width(content);
        let mut candidate = case.clone();
        if let Value::Bytes(bytes) = &mut candidate.values[at] {
            bytes.drain(records.start * width..records.end * width);
        }
        if let Some(count) = counter(name) {
            let left = candidate.count(count) - records.len() as u64;
            candidate.set_count(count, left);
            if candidate.call().name == "take_back" {
                for place in records.rev() {
                    forget_place(candidate.bytes_mut("journal"), place as u64);
                }
            }
        }
        candidate
    }

    /// Outputs and what stands behind rows to zeros and to their least length, numbers to 0.
    fn empty(&mut self) {
        for at in 0..self.case.values.len() {
            let argument = self.case.call().arguments[at];
            let mut candidate = self.case.clone();
            match &mut candidate.values[at] {
                Value::Result(numbers) => numbers.fill(0),
                Value::Count(count) if argument.name() == "year" => *count = 2007,
                Value::Count(_) => continue,
                Value::Bytes(bytes) => {
                    if !argument.is_written() && counter(argument.name()).is_none() {
                        continue;
                    }
                    let kept = self.kept_bytes(at);
                    bytes[kept..].fill(0);
                }
            }
            self.take(candidate);
            self.cut(at);
        }
    }

    /// The bytes of a buffer that are records.
    fn kept_bytes(&self, at: usize) -> usize {
        let argument = self.case.call().arguments[at];
        let (Argument::Buffer { name, content, .. }, Value::Bytes(bytes)) =
            (argument, &self.case.values[at])
        else {
            return 0;
        };
        match counter(name) {
            Some(count) => {
                let records = self
                    .case
                    .count(count)
                    .saturating_mul(record_width(content) as u64);
                records.min(bytes.len() as u64) as usize
            }
            None => 0,
        }
    }

    /// Shortens an output as far as it goes.
    fn cut(&mut self, at: usize) {
        let argument = self.case.call().arguments[at];
        let Argument::Buffer { content, width, .. } = argument else {
            return;
        };
        if !argument.is_written() && counter(argument.name()).is_none() {
            return;
        }
        let unit = match width {
            1 => record_width(content),
            width => width,
        };
        for unit in [unit * 16, unit, width] {
            loop {
                let kept = self.kept_bytes(at);
                let mut candidate = self.case.clone();
                let Value::Bytes(bytes) = &mut candidate.values[at] else {
                    return;
                };
                let Some(length) = bytes.len().checked_sub(unit).filter(|&left| left >= kept)
                else {
                    break;
                };
                bytes.truncate(length);
                if !self.take(candidate) {
                    break;
                }
            }
        }
    }

    /// Fields to blanks, zeros or less, record by record.
    fn simplify(&mut self) {
        for (at, name, content, written) in self.buffers() {
            if written && counter(name).is_none() || content == Content::Journal {
                continue;
            }
            let Value::Bytes(bytes) = &self.case.values[at] else {
                continue;
            };
            let (length, width) = (bytes.len(), record_width(content));
            let kept = match counter(name) {
                Some(_) => self.kept_bytes(at),
                None => length,
            };
            for start in (0..kept).step_by(width) {
                if self.is_over() {
                    return;
                }
                let end = (start + width).min(length);
                let record = match &self.case.values[at] {
                    Value::Bytes(bytes) => bytes[start..end].to_vec(),
                    _ => continue,
                };
                for field in layout(content, &record, end + width > length) {
                    self.simplify_field(at, content, start, field);
                }
            }
        }
    }

    fn simplify_field(&mut self, at: usize, content: Content, start: usize, field: &Field) {
        let range = start + field.first - 1..start + field.last;
        let Value::Bytes(bytes) = &self.case.values[at] else {
            return;
        };
        let Some(present) = bytes.get(range.clone()).map(<[u8]>::to_vec) else {
            return;
        };
        for simple in simpler(content, field, &present) {
            if simple == present {
                return;
            }
            let candidate = self.with(at, range.start, &simple);
            if self.take_mended(candidate, at, content) {
                return;
            }
        }
        for offset in range {
            let Value::Bytes(bytes) = &self.case.values[at] else {
                return;
            };
            let simple = match bytes[offset] {
                SPACE | ZERO => continue,
                0xF1..=0xF9 => ZERO,
                _ => SPACE,
            };
            let candidate = self.with(at, offset, &[simple]);
            self.take_mended(candidate, at, content);
        }
    }

    fn with(&self, at: usize, offset: usize, new: &[u8]) -> Case {
        let mut candidate = self.case.clone();
        if let Value::Bytes(bytes) = &mut candidate.values[at] {
            bytes[offset..offset + new.len()].copy_from_slice(new);
        }
        candidate
    }
}

/// Values of a field from the simplest on.
fn simpler(content: Content, field: &Field, present: &[u8]) -> Vec<Vec<u8>> {
    let width = present.len();
    let blank = vec![SPACE; width];
    let zeros = vec![ZERO; width];
    let mut one = zeros.clone();
    one[width - 1] = ZERO + 1;
    let mut letter = blank.clone();
    letter[0] = 0xC1;
    let mut cut = present.to_vec();
    cut[width.min(4)..].fill(SPACE);
    if content == Content::Rows {
        return match field.name {
            "Exclusion Indicator(s)" => vec![vec![0], vec![1]],
            "Arrearage Amount" => vec![one, zeros],
            "Status" => Vec::new(),
            "Obligor Last Name" => vec![letter, cut],
            "Payment Year" | "Accumulated Payment Amount" | "Local Code" | "Cents" => vec![zeros],
            "Submitting State Code" | "SSN" | "Case Type Indicator" => Vec::new(),
            _ => vec![blank, letter, cut],
        };
    }
    if matches!(
        field.name,
        "Submitting State Code" | "SSN" | "Case Type Indicator"
    ) {
        return Vec::new();
    }
    vec![blank, zeros, one, letter, cut]
}
