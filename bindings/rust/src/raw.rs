//! The calls as C has them, over slices: each answers 0 when it was carried out, else the number of a refusal, and writes its
//! numbers where they go. The functions of the crate's root make the same calls and answer a `Result`.
//!
//! Written by bin/generate-layouts from fantanolive.h; not to be edited.
//!
//! Every `unsafe` block is sound for the same reason: each pointer comes from a slice with its length, or from a reference, so it
//! is not null, is aligned and is valid for that length; those that are written come from exclusive borrows, so they overlap
//! nothing. The library keeps no pointer.

use std::ffi::{c_char, CStr};

extern "C" {
    fn fantanolive_version() -> *const c_char;
    fn fantanolive_apply(
        master: *mut u8,
        master_length: usize,
        rows: usize,
        batch: *const u8,
        batch_length: usize,
        locals: *const u8,
        locals_length: usize,
        year: u64,
        verdicts: *mut u64,
        verdicts_length: usize,
        rejects: *mut u8,
        rejects_length: usize,
        result: *mut u64,
    ) -> u64;
    fn fantanolive_apply_journaled(
        master: *mut u8,
        master_length: usize,
        rows: usize,
        batch: *const u8,
        batch_length: usize,
        locals: *const u8,
        locals_length: usize,
        year: u64,
        verdicts: *mut u64,
        verdicts_length: usize,
        rejects: *mut u8,
        rejects_length: usize,
        journal: *mut u8,
        journal_length: usize,
        result: *mut u64,
    ) -> u64;
    fn fantanolive_take_back(
        master: *mut u8,
        master_length: usize,
        rows: usize,
        journal: *const u8,
        journal_length: usize,
        rows_after: *mut u64,
    ) -> u64;
    fn fantanolive_totals(
        batch: *const u8,
        batch_length: usize,
        totals: *mut u64,
    ) -> u64;
    fn fantanolive_merge(
        first: *const u8,
        first_length: usize,
        second: *const u8,
        second_length: usize,
        out: *mut u8,
        out_length: usize,
        records: *mut u64,
    ) -> u64;
    fn fantanolive_find(
        master: *const u8,
        master_length: usize,
        rows: usize,
        key: *const u8,
        key_length: usize,
        place: *mut u64,
    ) -> u64;
    fn fantanolive_find_many(
        master: *const u8,
        master_length: usize,
        rows: usize,
        keys: *const u8,
        keys_length: usize,
        places: *mut u32,
        places_length: usize,
        comparisons: *mut u64,
    ) -> u64;
    fn fantanolive_reconcile(
        master: *const u8,
        master_length: usize,
        rows: usize,
        state: *const u8,
        state_length: usize,
        date: *const u8,
        date_length: usize,
        out: *mut u8,
        out_length: usize,
        records: *mut u64,
    ) -> u64;
    fn fantanolive_pages(
        master: *const u8,
        master_length: usize,
        rows: usize,
        out: *mut u8,
        out_length: usize,
        pages: *mut u64,
    ) -> u64;
    fn fantanolive_add_cents(
        master: *mut u8,
        master_length: usize,
        rows: usize,
    ) -> u64;
    fn fantanolive_post(
        master: *mut u8,
        master_length: usize,
        rows: usize,
        file: *const u8,
        file_length: usize,
        lines: *mut u32,
        lines_length: usize,
        listed: *mut u64,
    ) -> u64;
    fn fantanolive_to_ebcdic(
        input: *const u8,
        input_length: usize,
        out: *mut u8,
        out_length: usize,
        place: *mut u64,
    ) -> u64;
    fn fantanolive_to_ascii(
        input: *const u8,
        input_length: usize,
        out: *mut u8,
        out_length: usize,
        place: *mut u64,
    ) -> u64;
    fn fantanolive_contacts_update(
        table: *mut u8,
        table_length: usize,
        count: usize,
        file: *const u8,
        file_length: usize,
        faulty: *mut u32,
        faulty_length: usize,
        result: *mut u64,
    ) -> u64;
    fn fantanolive_contacts_codes(
        table: *const u8,
        table_length: usize,
        count: usize,
        state: *const u8,
        state_length: usize,
        out: *mut u8,
        out_length: usize,
        codes: *mut u64,
    ) -> u64;
    fn fantanolive_records_to(
        row: *const u8,
        row_length: usize,
        wanted: *const u8,
        wanted_length: usize,
        locals: *const u8,
        locals_length: usize,
        out: *mut u8,
        out_length: usize,
        records: *mut u64,
    ) -> u64;
}

/// The version of the library that is there at run time.
pub fn version() -> &'static CStr {
    // SAFETY: the library answers a constant text that a NUL ends.
    unsafe { CStr::from_ptr(fantanolive_version()) }
}

/// `fantanolive_apply`.
#[allow(clippy::too_many_arguments)]
pub fn apply(
    master: &mut [u8],
    rows: usize,
    batch: &[u8],
    locals: &[u8],
    year: u64,
    verdicts: &mut [u64],
    rejects: &mut [u8],
    result: &mut [u64; 5],
) -> u64 {
    // SAFETY: slices with their lengths, as said above.
    unsafe {
        fantanolive_apply(
            master.as_mut_ptr(), master.len(),
            rows,
            batch.as_ptr(), batch.len(),
            locals.as_ptr(), locals.len(),
            year,
            verdicts.as_mut_ptr(), verdicts.len(),
            rejects.as_mut_ptr(), rejects.len(),
            result.as_mut_ptr(),
        )
    }
}

/// `fantanolive_apply_journaled`.
#[allow(clippy::too_many_arguments)]
pub fn apply_journaled(
    master: &mut [u8],
    rows: usize,
    batch: &[u8],
    locals: &[u8],
    year: u64,
    verdicts: &mut [u64],
    rejects: &mut [u8],
    journal: &mut [u8],
    result: &mut [u64; 6],
) -> u64 {
    // SAFETY: slices with their lengths, as said above.
    unsafe {
        fantanolive_apply_journaled(
            master.as_mut_ptr(), master.len(),
            rows,
            batch.as_ptr(), batch.len(),
            locals.as_ptr(), locals.len(),
            year,
            verdicts.as_mut_ptr(), verdicts.len(),
            rejects.as_mut_ptr(), rejects.len(),
            journal.as_mut_ptr(), journal.len(),
            result.as_mut_ptr(),
        )
    }
}

/// `fantanolive_take_back`.
pub fn take_back(
    master: &mut [u8],
    rows: usize,
    journal: &[u8],
    rows_after: &mut u64,
) -> u64 {
    // SAFETY: slices with their lengths, as said above.
    unsafe {
        fantanolive_take_back(
            master.as_mut_ptr(), master.len(),
            rows,
            journal.as_ptr(), journal.len(),
            rows_after,
        )
    }
}

/// `fantanolive_totals`.
pub fn totals(
    batch: &[u8],
    totals: &mut [u64; 4],
) -> u64 {
    // SAFETY: slices with their lengths, as said above.
    unsafe {
        fantanolive_totals(
            batch.as_ptr(), batch.len(),
            totals.as_mut_ptr(),
        )
    }
}

/// `fantanolive_merge`.
pub fn merge(
    first: &[u8],
    second: &[u8],
    out: &mut [u8],
    records: &mut u64,
) -> u64 {
    // SAFETY: slices with their lengths, as said above.
    unsafe {
        fantanolive_merge(
            first.as_ptr(), first.len(),
            second.as_ptr(), second.len(),
            out.as_mut_ptr(), out.len(),
            records,
        )
    }
}

/// `fantanolive_find`.
pub fn find(
    master: &[u8],
    rows: usize,
    key: &[u8],
    place: &mut u64,
) -> u64 {
    // SAFETY: slices with their lengths, as said above.
    unsafe {
        fantanolive_find(
            master.as_ptr(), master.len(),
            rows,
            key.as_ptr(), key.len(),
            place,
        )
    }
}

/// `fantanolive_find_many`.
pub fn find_many(
    master: &[u8],
    rows: usize,
    keys: &[u8],
    places: &mut [u32],
    comparisons: &mut u64,
) -> u64 {
    // SAFETY: slices with their lengths, as said above.
    unsafe {
        fantanolive_find_many(
            master.as_ptr(), master.len(),
            rows,
            keys.as_ptr(), keys.len(),
            places.as_mut_ptr(), places.len(),
            comparisons,
        )
    }
}

/// `fantanolive_reconcile`.
pub fn reconcile(
    master: &[u8],
    rows: usize,
    state: &[u8],
    date: &[u8],
    out: &mut [u8],
    records: &mut u64,
) -> u64 {
    // SAFETY: slices with their lengths, as said above.
    unsafe {
        fantanolive_reconcile(
            master.as_ptr(), master.len(),
            rows,
            state.as_ptr(), state.len(),
            date.as_ptr(), date.len(),
            out.as_mut_ptr(), out.len(),
            records,
        )
    }
}

/// `fantanolive_pages`.
pub fn pages(
    master: &[u8],
    rows: usize,
    out: &mut [u8],
    pages: &mut u64,
) -> u64 {
    // SAFETY: slices with their lengths, as said above.
    unsafe {
        fantanolive_pages(
            master.as_ptr(), master.len(),
            rows,
            out.as_mut_ptr(), out.len(),
            pages,
        )
    }
}

/// `fantanolive_add_cents`.
pub fn add_cents(
    master: &mut [u8],
    rows: usize,
) -> u64 {
    // SAFETY: slices with their lengths, as said above.
    unsafe {
        fantanolive_add_cents(
            master.as_mut_ptr(), master.len(),
            rows,
        )
    }
}

/// `fantanolive_post`.
pub fn post(
    master: &mut [u8],
    rows: usize,
    file: &[u8],
    lines: &mut [u32],
    listed: &mut u64,
) -> u64 {
    // SAFETY: slices with their lengths, as said above.
    unsafe {
        fantanolive_post(
            master.as_mut_ptr(), master.len(),
            rows,
            file.as_ptr(), file.len(),
            lines.as_mut_ptr(), lines.len(),
            listed,
        )
    }
}

/// `fantanolive_to_ebcdic`.
pub fn to_ebcdic(
    input: &[u8],
    out: &mut [u8],
    place: &mut u64,
) -> u64 {
    // SAFETY: slices with their lengths, as said above.
    unsafe {
        fantanolive_to_ebcdic(
            input.as_ptr(), input.len(),
            out.as_mut_ptr(), out.len(),
            place,
        )
    }
}

/// `fantanolive_to_ascii`.
pub fn to_ascii(
    input: &[u8],
    out: &mut [u8],
    place: &mut u64,
) -> u64 {
    // SAFETY: slices with their lengths, as said above.
    unsafe {
        fantanolive_to_ascii(
            input.as_ptr(), input.len(),
            out.as_mut_ptr(), out.len(),
            place,
        )
    }
}

/// `fantanolive_contacts_update`.
pub fn contacts_update(
    table: &mut [u8],
    count: usize,
    file: &[u8],
    faulty: &mut [u32],
    result: &mut [u64; 2],
) -> u64 {
    // SAFETY: slices with their lengths, as said above.
    unsafe {
        fantanolive_contacts_update(
            table.as_mut_ptr(), table.len(),
            count,
            file.as_ptr(), file.len(),
            faulty.as_mut_ptr(), faulty.len(),
            result.as_mut_ptr(),
        )
    }
}

/// `fantanolive_contacts_codes`.
pub fn contacts_codes(
    table: &[u8],
    count: usize,
    state: &[u8],
    out: &mut [u8],
    codes: &mut u64,
) -> u64 {
    // SAFETY: slices with their lengths, as said above.
    unsafe {
        fantanolive_contacts_codes(
            table.as_ptr(), table.len(),
            count,
            state.as_ptr(), state.len(),
            out.as_mut_ptr(), out.len(),
            codes,
        )
    }
}

/// `fantanolive_records_to`.
pub fn records_to(
    row: &[u8],
    wanted: &[u8],
    locals: &[u8],
    out: &mut [u8],
    records: &mut u64,
) -> u64 {
    // SAFETY: slices with their lengths, as said above.
    unsafe {
        fantanolive_records_to(
            row.as_ptr(), row.len(),
            wanted.as_ptr(), wanted.len(),
            locals.as_ptr(), locals.len(),
            out.as_mut_ptr(), out.len(),
            records,
        )
    }
}

/// The addresses of the calls by their names, for programs that lend memory of their own making.
pub fn addresses() -> [(&'static str, *const ()); 16] {
    [
        ("apply", fantanolive_apply as *const ()),
        ("apply_journaled", fantanolive_apply_journaled as *const ()),
        ("take_back", fantanolive_take_back as *const ()),
        ("totals", fantanolive_totals as *const ()),
        ("merge", fantanolive_merge as *const ()),
        ("find", fantanolive_find as *const ()),
        ("find_many", fantanolive_find_many as *const ()),
        ("reconcile", fantanolive_reconcile as *const ()),
        ("pages", fantanolive_pages as *const ()),
        ("add_cents", fantanolive_add_cents as *const ()),
        ("post", fantanolive_post as *const ()),
        ("to_ebcdic", fantanolive_to_ebcdic as *const ()),
        ("to_ascii", fantanolive_to_ascii as *const ()),
        ("contacts_update", fantanolive_contacts_update as *const ()),
        ("contacts_codes", fantanolive_contacts_codes as *const ()),
        ("records_to", fantanolive_records_to as *const ()),
    ]
}
