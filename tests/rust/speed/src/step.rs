//! One record on one row, in place.

use crate::field::*;

/// What every step reads.
pub struct Context {
    pub year: u64,
    /// By the low halves of a code's three bytes, whether it is listed.
    listed: Box<[bool; 1 << 12]>,
}

impl Context {
    pub fn new(list: &[u8], year: u64) -> Context {
        let mut listed = Box::new([false; 1 << 12]);
        let (codes, _) = list.as_chunks::<3>();
        for code in codes {
            listed[place(code)] = true;
        }
        Context { year, listed }
    }

    #[inline(always)]
    fn listed(&self, code: &[u8; 3]) -> bool {
        (code[0] & code[1] & code[2] >= 0xF0) & self.listed[place(code)]
    }

    /// Neither blank, 000 nor listed.
    #[inline]
    fn unknown(&self, code: &[u8; 3]) -> bool {
        *code != [SPACE; 3] && *code != [ZERO; 3] && !self.listed(code)
    }
}

/// The low halves of three bytes.
#[inline(always)]
fn place(code: &[u8; 3]) -> usize {
    let [first, second, third] = code.map(|byte| usize::from(byte & 15));
    first << 8 | second << 4 | third
}

/// The row of a record's key, as it is when the record's turn comes.
pub enum Place<'a> {
    None,
    Row(&'a mut Row),
}

/// The codes, and the stored characters of 17 (spaces without).
pub struct Verdict {
    pub codes: u64,
    pub stored: [u8; 4],
    /// A new row is to be added.
    pub add: bool,
    /// The exclusion set of an A record without an error.
    pub set: u8,
}

/// Codes 01 to 18.
pub const ERRORS: u64 = (1 << 19) - 2;

#[inline]
fn bit(code: u32, holds: bool) -> u64 {
    u64::from(holds) << code
}

/// Works one record; `key_errors` are 01, 02 and 04, already judged, and `given` tells whether a B
/// record of the key gives a name.
#[inline]
pub fn step(
    record: &Record,
    key_errors: u64,
    place: Place,
    given: impl Fn(&[u8; 4]) -> bool,
    context: &Context,
) -> Verdict {
    let mut codes = key_errors | bit(18, !blank::<17>(record, 227));
    let kind = record[72];
    if kind == 0xC1 {
        return add(record, codes, place, context);
    }
    let live = match place {
        Place::Row(row) if row[195] == SPACE => Some(row),
        _ => None,
    };
    let mut stored = [SPACE; 4];
    let four = at::<4>(record, 29);
    let known = matches!(
        kind,
        0xC2 | 0xC3 | 0xC4 | 0xD3 | 0xD4 | 0xD9 | 0xE2 | 0xE3 | 0xE9
    );
    if kind == 0xC2 {
        codes |= bit(5, name_wrong(four, true)) | bit(6, !letter(record[49]));
        codes |= bit(9, key_errors == 0 && live.is_none());
    } else if !known {
        codes |= bit(3, true) | bit(5, name_wrong(four, false));
        return Verdict {
            codes,
            stored,
            add: false,
            set: 0,
        };
    } else if let (0, Some(row)) = (key_errors, &live) {
        let name = at::<4>(&row[..], 30);
        if four != name {
            if name_wrong(four, false) {
                codes |= 1 << 5;
            } else if !given(four) {
                codes |= 1 << 17;
                stored = *name;
            }
        }
    } else {
        codes |= bit(9, key_errors == 0) | bit(5, name_wrong(four, false));
    }
    let (faults, set) = faults(record, kind, context);
    codes |= faults;
    if codes == 0 {
        if let Some(row) = live {
            change(row, record, kind, set);
        }
    }
    Verdict {
        codes,
        stored,
        add: false,
        set: 0,
    }
}

/// The errors of a type other than A that don't look at the row, and the exclusion set of R.
#[inline]
fn faults(record: &Record, kind: u8, context: &Context) -> (u64, u8) {
    let codes = match kind {
        0xC3 => bit(11, blank::<15>(record, 14)),
        0xD3 => bit(10, context.unknown(at(record, 2))),
        0xD4 => bit(7, !digits8(at(record, 64))),
        0xD9 => {
            return match exclusions(record) {
                Some(set) => (0, set),
                None => (1 << 16, 0),
            }
        }
        0xE2 => bit(7, !digits8(at(record, 64))) | bit(13, year_wrong(at(record, 79), context)),
        0xE3 => bit(12, state(at(record, 74)) == NO_STATE),
        0xE9 => {
            let wrong = blank::<60>(record, 83)
                || blank::<25>(record, 143)
                || state(at(record, 168)) == NO_STATE
                || !zip(record);
            bit(14, wrong)
        }
        _ => 0,
    };
    (codes, 0)
}

#[inline]
fn year_wrong(field: &[u8; 4], context: &Context) -> bool {
    let year = number(field);
    !digits(field) || year + 7 < context.year || year > context.year
}

/// Carries out a record of a type other than A.
#[inline]
fn change(row: &mut Row, record: &Record, kind: u8, set: u8) {
    match kind {
        0xC2 => copy::<35>(row, 30, record, 29),
        0xC3 => copy::<15>(row, 15, record, 14),
        0xC4 => {
            row[65..73].fill(ZERO);
            row[196..198].fill(ZERO);
            row[195] = 0xC4;
        }
        0xD3 => put_local(row, record, !blank::<3>(record, 2)),
        0xD4 => {
            copy::<8>(row, 65, record, 64);
            row[196..198].fill(ZERO);
            if *at::<8>(record, 64) == [ZERO; 8] {
                row[195] = 0xC4;
            }
        }
        0xD9 => row[194] = set,
        0xE2 => {
            copy::<4>(row, 78, record, 79);
            copy::<8>(row, 82, record, 64);
        }
        0xE3 => {
            copy::<2>(row, 73, record, 74);
            if !blank::<3>(record, 76) {
                copy::<3>(row, 75, record, 76);
            }
        }
        0xE9 => copy::<96>(row, 90, record, 83),
        _ => {}
    }
}

#[inline]
fn put_local(row: &mut Row, record: &Record, sent: bool) {
    if sent {
        copy::<3>(row, 12, record, 2);
    } else {
        row[12..15].fill(ZERO);
    }
}

/// Works an A record.
#[inline]
fn add(record: &Record, key: u64, place: Place, context: &Context) -> Verdict {
    let mut codes = key | bit(5, name_wrong(at(record, 29), true)) | bit(6, !letter(record[49]));
    let amount = at::<8>(record, 64);
    if !digits8(amount) {
        codes |= 1 << 7;
    } else {
        codes |= bit(8, number8(amount) < 25);
    }
    let state_wrong = !blank::<2>(record, 168) && state(at(record, 168)) == NO_STATE;
    let zip_wrong = !blank::<9>(record, 170) && !zip(record);
    codes |= bit(14, state_wrong || zip_wrong);
    codes |= bit(15, !blank::<8>(record, 179) && !date(at(record, 179)));
    let set = exclusions(record);
    codes |= bit(16, set.is_none());
    let mut verdict = Verdict {
        codes,
        stored: [SPACE; 4],
        add: false,
        set: set.unwrap_or(0),
    };
    if codes != 0 {
        return verdict;
    }
    let set = verdict.set;
    let local = at::<3>(record, 2);
    verdict.codes = bit(51, context.unknown(local));
    match place {
        Place::None => verdict.add = true,
        Place::Row(row) if row[195] == SPACE => {
            verdict.codes |= bit(52, at::<35>(record, 29) != at::<35>(row, 30));
            recertify(row, record, set, context.listed(local));
        }
        Place::Row(row) => fresh(row, record, set, context),
    }
    verdict
}

/// An A record without an error on a live row.
fn recertify(row: &mut Row, record: &Record, set: u8, listed: bool) {
    put_local(row, record, listed);
    if !blank::<15>(record, 14) {
        copy::<15>(row, 15, record, 14);
    }
    copy::<43>(row, 30, record, 29);
    row[196..198].fill(ZERO);
    if !blank::<96>(record, 83) {
        copy::<96>(row, 90, record, 83);
    }
    if !blank::<8>(record, 179) {
        copy::<8>(row, 186, record, 179);
    }
    row[194] = set;
}

/// The fresh row of an A record without an error.
#[inline]
pub fn fresh(row: &mut Row, record: &Record, set: u8, context: &Context) {
    copy::<2>(row, 0, record, 0);
    copy::<9>(row, 2, record, 5);
    row[11] = record[73];
    put_local(row, record, context.listed(at(record, 2)));
    copy::<58>(row, 15, record, 14);
    row[73..78].fill(SPACE);
    row[78..90].fill(ZERO);
    copy::<104>(row, 90, record, 83);
    row[194] = set;
    row[195] = SPACE;
    row[196..198].fill(ZERO);
    row[198..].fill(SPACE);
}
