package fantanolive;

import java.util.Objects;

/**
 * The calls of fantanolive.h over arrays that the caller lends: an array has its own length, and what a call writes it writes
 * into the array. Numbers of the result go into the last array. A refusal is thrown as {@link Refused}, and nothing was
 * written then. Written by bin/generate-layouts from fantanolive.h; not to be edited.
 */
public final class Calls {
    private Calls() {}

    /** The call fantanolive_apply, in the arrays that are lent. */
    public static void apply(byte[] master, long rows, byte[] batch, byte[] locals, long year, long[] verdicts, byte[] rejects, long[] result) {
        Objects.requireNonNull(master, "master");
        Objects.requireNonNull(batch, "batch");
        Objects.requireNonNull(locals, "locals");
        Objects.requireNonNull(verdicts, "verdicts");
        Objects.requireNonNull(rejects, "rejects");
        Objects.requireNonNull(result, "result");
        Checks.notNegative("rows", rows);
        Checks.notNegative("year", year);
        Checks.atLeast("result", result.length, 5);
        Checks.done("apply", Native.apply(master, rows, batch, locals, year, verdicts, rejects, result), -1);
    }

    /** The call fantanolive_apply_journaled, in the arrays that are lent. */
    public static void applyJournaled(byte[] master, long rows, byte[] batch, byte[] locals, long year, long[] verdicts, byte[] rejects, byte[] journal, long[] result) {
        Objects.requireNonNull(master, "master");
        Objects.requireNonNull(batch, "batch");
        Objects.requireNonNull(locals, "locals");
        Objects.requireNonNull(verdicts, "verdicts");
        Objects.requireNonNull(rejects, "rejects");
        Objects.requireNonNull(journal, "journal");
        Objects.requireNonNull(result, "result");
        Checks.notNegative("rows", rows);
        Checks.notNegative("year", year);
        Checks.atLeast("result", result.length, 6);
        Checks.done("apply_journaled", Native.applyJournaled(master, rows, batch, locals, year, verdicts, rejects, journal, result), -1);
    }

    /** The call fantanolive_take_back, in the arrays that are lent. */
    public static void takeBack(byte[] master, long rows, byte[] journal, long[] rowsAfter) {
        Objects.requireNonNull(master, "master");
        Objects.requireNonNull(journal, "journal");
        Objects.requireNonNull(rowsAfter, "rowsAfter");
        Checks.notNegative("rows", rows);
        Checks.atLeast("rowsAfter", rowsAfter.length, 1);
        Checks.done("take_back", Native.takeBack(master, rows, journal, rowsAfter), -1);
    }

    /** The call fantanolive_totals, in the arrays that are lent. */
    public static void totals(byte[] batch, long[] totals) {
        Objects.requireNonNull(batch, "batch");
        Objects.requireNonNull(totals, "totals");
        Checks.atLeast("totals", totals.length, 4);
        Checks.done("totals", Native.totals(batch, totals), -1);
    }

    /** The call fantanolive_merge, in the arrays that are lent. */
    public static void merge(byte[] first, byte[] second, byte[] out, long[] records) {
        Objects.requireNonNull(first, "first");
        Objects.requireNonNull(second, "second");
        Objects.requireNonNull(out, "out");
        Objects.requireNonNull(records, "records");
        Checks.atLeast("records", records.length, 1);
        Checks.done("merge", Native.merge(first, second, out, records), -1);
    }

    /** The call fantanolive_find, in the arrays that are lent. */
    public static void find(byte[] master, long rows, byte[] key, long[] place) {
        Objects.requireNonNull(master, "master");
        Objects.requireNonNull(key, "key");
        Objects.requireNonNull(place, "place");
        Checks.notNegative("rows", rows);
        Checks.atLeast("place", place.length, 1);
        Checks.done("find", Native.find(master, rows, key, place), -1);
    }

    /** The call fantanolive_find_many, in the arrays that are lent. */
    public static void findMany(byte[] master, long rows, byte[] keys, int[] places, long[] comparisons) {
        Objects.requireNonNull(master, "master");
        Objects.requireNonNull(keys, "keys");
        Objects.requireNonNull(places, "places");
        Objects.requireNonNull(comparisons, "comparisons");
        Checks.notNegative("rows", rows);
        Checks.atLeast("comparisons", comparisons.length, 1);
        Checks.done("find_many", Native.findMany(master, rows, keys, places, comparisons), -1);
    }

    /** The call fantanolive_reconcile, in the arrays that are lent. */
    public static void reconcile(byte[] master, long rows, byte[] state, byte[] date, byte[] out, long[] records) {
        Objects.requireNonNull(master, "master");
        Objects.requireNonNull(state, "state");
        Objects.requireNonNull(date, "date");
        Objects.requireNonNull(out, "out");
        Objects.requireNonNull(records, "records");
        Checks.notNegative("rows", rows);
        Checks.atLeast("records", records.length, 1);
        Checks.done("reconcile", Native.reconcile(master, rows, state, date, out, records), -1);
    }

    /** The call fantanolive_pages, in the arrays that are lent. */
    public static void pages(byte[] master, long rows, byte[] out, long[] pages) {
        Objects.requireNonNull(master, "master");
        Objects.requireNonNull(out, "out");
        Objects.requireNonNull(pages, "pages");
        Checks.notNegative("rows", rows);
        Checks.atLeast("pages", pages.length, 1);
        Checks.done("pages", Native.pages(master, rows, out, pages), -1);
    }

    /** The call fantanolive_add_cents, in the arrays that are lent. */
    public static void addCents(byte[] master, long rows) {
        Objects.requireNonNull(master, "master");
        Checks.notNegative("rows", rows);
        Checks.done("add_cents", Native.addCents(master, rows), -1);
    }

    /** The call fantanolive_post, in the arrays that are lent. */
    public static void post(byte[] master, long rows, byte[] file, int[] lines, long[] listed) {
        Objects.requireNonNull(master, "master");
        Objects.requireNonNull(file, "file");
        Objects.requireNonNull(lines, "lines");
        Objects.requireNonNull(listed, "listed");
        Checks.notNegative("rows", rows);
        Checks.atLeast("listed", listed.length, 1);
        Checks.done("post", Native.post(master, rows, file, lines, listed), -1);
    }

    /** The call fantanolive_to_ebcdic, in the arrays that are lent. */
    public static void toEbcdic(byte[] in, byte[] out, long[] place) {
        Objects.requireNonNull(in, "in");
        Objects.requireNonNull(out, "out");
        Objects.requireNonNull(place, "place");
        Checks.atLeast("place", place.length, 1);
        Checks.done("to_ebcdic", Native.toEbcdic(in, out, place), place[0]);
    }

    /** The call fantanolive_to_ascii, in the arrays that are lent. */
    public static void toAscii(byte[] in, byte[] out, long[] place) {
        Objects.requireNonNull(in, "in");
        Objects.requireNonNull(out, "out");
        Objects.requireNonNull(place, "place");
        Checks.atLeast("place", place.length, 1);
        Checks.done("to_ascii", Native.toAscii(in, out, place), place[0]);
    }

    /** The call fantanolive_contacts_update, in the arrays that are lent. */
    public static void contactsUpdate(byte[] table, long count, byte[] file, int[] faulty, long[] result) {
        Objects.requireNonNull(table, "table");
        Objects.requireNonNull(file, "file");
        Objects.requireNonNull(faulty, "faulty");
        Objects.requireNonNull(result, "result");
        Checks.notNegative("count", count);
        Checks.atLeast("result", result.length, 2);
        Checks.done("contacts_update", Native.contactsUpdate(table, count, file, faulty, result), -1);
    }

    /** The call fantanolive_contacts_codes, in the arrays that are lent. */
    public static void contactsCodes(byte[] table, long count, byte[] state, byte[] out, long[] codes) {
        Objects.requireNonNull(table, "table");
        Objects.requireNonNull(state, "state");
        Objects.requireNonNull(out, "out");
        Objects.requireNonNull(codes, "codes");
        Checks.notNegative("count", count);
        Checks.atLeast("codes", codes.length, 1);
        Checks.done("contacts_codes", Native.contactsCodes(table, count, state, out, codes), -1);
    }

    /** The call fantanolive_records_to, in the arrays that are lent. */
    public static void recordsTo(byte[] row, byte[] wanted, byte[] locals, byte[] out, long[] records) {
        Objects.requireNonNull(row, "row");
        Objects.requireNonNull(wanted, "wanted");
        Objects.requireNonNull(locals, "locals");
        Objects.requireNonNull(out, "out");
        Objects.requireNonNull(records, "records");
        Checks.atLeast("records", records.length, 1);
        Checks.done("records_to", Native.recordsTo(row, wanted, locals, out, records), -1);
    }
}
