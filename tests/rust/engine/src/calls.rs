//! The calls of the reference with the interface of `fantanolive.h`. What includes this file has the macro `calls`, which makes the
//! functions.

use std::slice;

use reference::code_page::Refusal;

/// What is read.
///
/// # Safety
/// The pointer must be valid for the length.
unsafe fn read<'a, T>(start: *const T, length: usize) -> &'a [T] {
    // SAFETY: the caller's.
    unsafe { slice::from_raw_parts(start, length) }
}

/// What is written.
///
/// # Safety
/// The pointer must be valid for the length, and overlap nothing else.
unsafe fn written<'a, T>(start: *mut T, length: usize) -> &'a mut [T] {
    // SAFETY: the caller's.
    unsafe { slice::from_raw_parts_mut(start, length) }
}

/// The answer of a call: 0 with its numbers put where they go, or the refusal.
///
/// # Safety
/// The pointer must be valid for so many numbers.
unsafe fn told<const N: usize>(result: Result<[u64; N], u64>, to: *mut u64) -> u64 {
    match result {
        Ok(numbers) => {
            // SAFETY: the caller's.
            unsafe { written(to, N) }.copy_from_slice(&numbers);
            0
        }
        Err(refusal) => refusal,
    }
}

/// A conversion's answer; the place is written with 16 alone.
///
/// # Safety
/// The pointer must be valid.
unsafe fn converted(result: Result<(), Refusal>, place: *mut u64) -> u64 {
    if let Err(Refusal::NoCounterpart(at)) = result {
        // SAFETY: the caller's.
        unsafe { *place = at };
    }
    result.map_or_else(Refusal::number, |()| 0)
}

calls! {
    apply(
        master: *mut u8, master_length: usize, rows: usize, batch: *const u8, batch_length: usize, locals: *const u8,
        locals_length: usize, year: u64, verdicts: *mut u64, verdicts_length: usize, rejects: *mut u8, rejects_length: usize,
        result: *mut u64,
    ) {
        let counts = reference::apply(
            written(master, master_length), rows, read(batch, batch_length), read(locals, locals_length), year,
            written(verdicts, verdicts_length), written(rejects, rejects_length),
        );
        let numbers = counts.map(|c| [c.accepted, c.rejected, c.warned, c.neither, c.rows]);
        told(numbers, result)
    }

    apply_journaled(
        master: *mut u8, master_length: usize, rows: usize, batch: *const u8, batch_length: usize, locals: *const u8,
        locals_length: usize, year: u64, verdicts: *mut u64, verdicts_length: usize, rejects: *mut u8, rejects_length: usize,
        journal: *mut u8, journal_length: usize, result: *mut u64,
    ) {
        let counts = reference::apply_journaled(
            written(master, master_length), rows, read(batch, batch_length), read(locals, locals_length), year,
            written(verdicts, verdicts_length), written(rejects, rejects_length), written(journal, journal_length),
        );
        let numbers = counts.map(|(c, length)| [c.accepted, c.rejected, c.warned, c.neither, c.rows, length]);
        told(numbers, result)
    }

    take_back(
        master: *mut u8, master_length: usize, rows: usize, journal: *const u8, journal_length: usize, rows_after: *mut u64,
    ) {
        let left = reference::take_back(written(master, master_length), rows, read(journal, journal_length));
        told(left.map(|rows| [rows]), rows_after)
    }

    totals(batch: *const u8, batch_length: usize, totals: *mut u64) {
        told(reference::totals(read(batch, batch_length)), totals)
    }

    merge(
        first: *const u8, first_length: usize, second: *const u8, second_length: usize, out: *mut u8, out_length: usize,
        records: *mut u64,
    ) {
        let merged = reference::merge(read(first, first_length), read(second, second_length), written(out, out_length));
        told(merged.map(|count| [count]), records)
    }

    find(
        master: *const u8, master_length: usize, rows: usize, key: *const u8, key_length: usize, place: *mut u64,
    ) {
        let found = reference::find(read(master, master_length), rows, read(key, key_length));
        told(found.map(|place| [place]), place)
    }

    find_many(
        master: *const u8, master_length: usize, rows: usize, keys: *const u8, keys_length: usize, places: *mut u32,
        places_length: usize, comparisons: *mut u64,
    ) {
        let walked = reference::find_many(
            read(master, master_length), rows, read(keys, keys_length), written(places, places_length),
        );
        told(walked.map(|count| [count]), comparisons)
    }

    reconcile(
        master: *const u8, master_length: usize, rows: usize, state: *const u8, state_length: usize, date: *const u8,
        date_length: usize, out: *mut u8, out_length: usize, records: *mut u64,
    ) {
        let listed = reference::reconcile(
            read(master, master_length), rows, read(state, state_length), read(date, date_length), written(out, out_length),
        );
        told(listed.map(|count| [count]), records)
    }

    pages(
        master: *const u8, master_length: usize, rows: usize, out: *mut u8, out_length: usize, pages: *mut u64,
    ) {
        let printed = reference::pages(read(master, master_length), rows, written(out, out_length));
        told(printed.map(|count| [count]), pages)
    }

    add_cents(master: *mut u8, master_length: usize, rows: usize) {
        reference::add_cents(written(master, master_length), rows).map_or_else(|refusal| refusal, |()| 0)
    }

    post(
        master: *mut u8, master_length: usize, rows: usize, file: *const u8, file_length: usize, lines: *mut u32,
        lines_length: usize, listed: *mut u64,
    ) {
        let posted = reference::post(
            written(master, master_length), rows, read(file, file_length), written(lines, lines_length),
        );
        told(posted.map(|count| [count]), listed)
    }

    to_ebcdic(
        input: *const u8, input_length: usize, out: *mut u8, out_length: usize, place: *mut u64,
    ) {
        converted(reference::to_ebcdic(read(input, input_length), written(out, out_length)), place)
    }

    to_ascii(
        input: *const u8, input_length: usize, out: *mut u8, out_length: usize, place: *mut u64,
    ) {
        converted(reference::to_ascii(read(input, input_length), written(out, out_length)), place)
    }

    contacts_update(
        table: *mut u8, table_length: usize, count: usize, file: *const u8, file_length: usize, faulty: *mut u32,
        faulty_length: usize, result: *mut u64,
    ) {
        let updated = reference::contacts::update(
            written(table, table_length), count, read(file, file_length), written(faulty, faulty_length),
        );
        told(updated, result)
    }

    contacts_codes(
        table: *const u8, table_length: usize, count: usize, state: *const u8, state_length: usize, out: *mut u8,
        out_length: usize, codes: *mut u64,
    ) {
        let found = reference::contacts::codes(
            read(table, table_length), count, read(state, state_length), written(out, out_length),
        );
        told(found.map(|count| [count]), codes)
    }

    records_to(
        row: *const u8, row_length: usize, wanted: *const u8, wanted_length: usize, locals: *const u8, locals_length: usize,
        out: *mut u8, out_length: usize, records: *mut u64,
    ) {
        let led = reference::records_to(
            read(row, row_length), read(wanted, wanted_length), read(locals, locals_length), written(out, out_length),
        );
        told(led.map(|count| [count]), records)
    }
}
