package fantanolive;

import java.io.ByteArrayOutputStream;
import java.time.LocalDate;
import java.time.format.DateTimeFormatter;
import java.util.Arrays;
import java.util.List;
import java.util.stream.IntStream;

/**
 * The calls of the library over whole files: arguments stay as they are, and what a call writes comes back in arrays of its own.
 * A master and a table are just their rows and records here. Keys, states and lists of local codes are ordinary strings. A
 * refusal is thrown as {@link Refused}. {@link Calls} has the same in arrays that are lent. An array of Java holds at most
 * 2,147,483,647 bytes: a master of 10,737,418 rows, a batch of 8,765,238 details.
 */
public final class Fantanolive {
    private static final int KEY = 12;
    private static final int LOCAL_CODE = 3;
    private static final int TYPE_COLUMN = 73;
    private static final int STATUS_COLUMN = 196;
    private static final int PAGE_CASES = 58;
    private static final byte A = (byte) 0xC1;
    private static final byte LIVE = 0x40;

    /** The place that a key without a row has in {@link FoundMany}. */
    public static final int NO_PLACE = -1;

    private Fantanolive() {}

    /** How many details came out how, and the rows of the master afterwards; accepted includes warned. */
    public record Counts(long accepted, long rejected, long warned, long neither, long rows) {}

    /** What a batch leaves: the new master, a verdict per detail, the reject file, the counts, and the journal where there is one. */
    public record Applied(byte[] master, long[] verdicts, byte[] rejects, Counts counts, byte[] journal) {
        /** The lengths of the files, and the counts: files hold SSNs. */
        @Override
        public String toString() {
            return "Applied[master=" + master.length + " bytes, rejects=" + rejects.length + " bytes, counts=" + counts + "]";
        }
    }

    /** The numbers of a batch's details by case type, and their amounts. */
    public record Totals(long tanfCount, long nonTanfCount, long tanfAmount, long nonTanfAmount) {}

    /** A place per key, the first row being 0, or NO_PLACE, and how many comparisons of a key with a row were made. */
    public record FoundMany(int[] places, long comparisons) {}

    /** What posting leaves: the new master, and the numbers of the lines not posted, the first being 1. */
    public record Posted(byte[] master, int[] listed) {}

    /** What reading a contact file leaves: the new table, and the numbers of the faulty records, the first being 1. */
    public record Updated(byte[] table, int[] faulty) {}

    /** The version of the library. */
    public static String version() {
        return Native.version();
    }

    /** The codes of a verdict, rising. */
    public static List<Code> codesOf(long verdict) {
        return IntStream.range(0, 64).filter(code -> (verdict >>> code & 1) == 1).mapToObj(Code::of).toList();
    }

    /** A text in EBCDIC (code page 037); what its characters are is left to the call to judge. */
    static byte[] ebcdic(String text) {
        byte[] bytes = new byte[text.length()];
        for (int i = 0; i < bytes.length; i++) {
            int code = CodePage.CHARACTERS.indexOf(text.charAt(i));
            if (code < 0) {
                throw new IllegalArgumentException("a character that EBCDIC has not");
            }
            bytes[i] = (byte) code;
        }
        return bytes;
    }

    /** A batch of details: their records, and a control record of the state with their totals. */
    public static byte[] makeBatch(String state, List<Detail> details) {
        ByteArrayOutputStream batch = new ByteArrayOutputStream();
        details.forEach(detail -> batch.writeBytes(detail.write()));
        Control control = Control.blank().withState(state).withMark("CTL");
        byte[] counted = Arrays.copyOf(batch.toByteArray(), batch.size() + Control.WIDTH);
        Totals totals = totals(counted);
        batch.writeBytes(control.withTanfRecordsNumber(totals.tanfCount).withNonTanfRecordsNumber(totals.nonTanfCount)
                .withTanfAmountNumber(totals.tanfAmount).withNonTanfAmountNumber(totals.nonTanfAmount).write());
        return batch.toByteArray();
    }

    /** Applies a batch to a master; locals is the list of local codes, such as "001025". */
    public static Applied apply(byte[] master, byte[] batch, String locals, int year) {
        return applied(master, batch, locals, year, null);
    }

    /** The same, with a journal for {@link #takeBack}. */
    public static Applied applyJournaled(byte[] master, byte[] batch, String locals, int year) {
        return applied(master, batch, locals, year, new byte[Math.toIntExact(12 + 205L * details(batch))]);
    }

    private static int details(byte[] batch) {
        return Math.max(batch.length / Detail.WIDTH - 1, 0);
    }

    private static int count(byte[] file, int width, int column, byte wanted, int blocks) {
        return (int) IntStream.range(0, blocks).filter(block -> file[block * width + column - 1] == wanted).count();
    }

    private static Applied applied(byte[] master, byte[] batch, String locals, int year, byte[] journal) {
        int details = details(batch);
        int adds = count(batch, Detail.WIDTH, TYPE_COLUMN, A, details);
        byte[] space = Arrays.copyOf(master, Math.toIntExact(master.length + (long) Row.WIDTH * adds));
        long[] verdicts = new long[details];
        byte[] rejects = new byte[Math.toIntExact((long) Reject.WIDTH * (details + 1))];
        long[] result = new long[6];
        int rows = master.length / Row.WIDTH;
        if (journal == null) {
            Calls.apply(space, rows, batch, ebcdic(locals), year, verdicts, rejects, result);
        } else {
            Calls.applyJournaled(space, rows, batch, ebcdic(locals), year, verdicts, rejects, journal, result);
        }
        int rejected = (int) Arrays.stream(verdicts).filter(verdict -> verdict != 0).count();
        Counts counts = new Counts(result[0], result[1], result[2], result[3], result[4]);
        byte[] kept = journal == null ? null : Arrays.copyOf(journal, (int) result[5]);
        byte[] left = Arrays.copyOf(space, Row.WIDTH * (int) counts.rows);
        return new Applied(left, verdicts, Arrays.copyOf(rejects, Reject.WIDTH * (rejected + 1)), counts, kept);
    }

    /** The master from before a batch, from the one that it left and its journal. */
    public static byte[] takeBack(byte[] master, byte[] journal) {
        byte[] space = master.clone();
        long[] rows = new long[1];
        Calls.takeBack(space, master.length / Row.WIDTH, journal, rows);
        return Arrays.copyOf(space, Row.WIDTH * (int) rows[0]);
    }

    /** Adds up the totals of a batch's details, whatever its last record says. */
    public static Totals totals(byte[] batch) {
        long[] totals = new long[4];
        Calls.totals(batch, totals);
        return new Totals(totals[0], totals[1], totals[2], totals[3]);
    }

    /** Two batches of one state merged into one. */
    public static byte[] merge(byte[] first, byte[] second) {
        byte[] out = new byte[Math.addExact(first.length, second.length)];
        long[] records = new long[1];
        Calls.merge(first, second, out, records);
        return Arrays.copyOf(out, Detail.WIDTH * (int) records[0]);
    }

    /** Finds the row of a key, such as "OH123456789N", and answers its place, the first being 0. */
    public static long find(byte[] master, String key) {
        long[] place = new long[1];
        Calls.find(master, master.length / Row.WIDTH, ebcdic(key), place);
        return place[0];
    }

    /** Finds the rows of many keys, strictly rising in byte order (letters before digits). */
    public static FoundMany findMany(byte[] master, List<String> keys) {
        byte[] joined = ebcdic(String.join("", keys));
        int[] places = new int[joined.length / KEY];
        long[] comparisons = new long[1];
        Calls.findMany(master, master.length / Row.WIDTH, joined, places, comparisons);
        return new FoundMany(places, comparisons[0]);
    }

    /** The reconciliation file of a state, such as "OH", with a date. */
    public static byte[] reconcile(byte[] master, String state, LocalDate date) {
        int rows = master.length / Row.WIDTH;
        byte[] out = new byte[Math.toIntExact((long) Rec.WIDTH * (rows + 1))];
        long[] records = new long[1];
        Calls.reconcile(master, rows, ebcdic(state), ebcdic(date.format(DateTimeFormatter.BASIC_ISO_DATE)), out, records);
        return Arrays.copyOf(out, Rec.WIDTH * ((int) records[0] + 1));
    }

    /** The case pages of a master. */
    public static byte[] pages(byte[] master) {
        int rows = master.length / Row.WIDTH;
        long live = count(master, Row.WIDTH, STATUS_COLUMN, LIVE, rows);
        long pages = (live + PAGE_CASES - 1) / PAGE_CASES;
        byte[] out = new byte[Math.toIntExact(PageLine.WIDTH * (live + 2 * pages))];
        Calls.pages(master, rows, out, new long[1]);
        return out;
    }

    /** A master that has no cents yet with 00 cents in every row. */
    public static byte[] addCents(byte[] master) {
        byte[] space = master.clone();
        Calls.addCents(space, master.length / Row.WIDTH);
        return space;
    }

    /** Posts a weekly collection file. */
    public static Posted post(byte[] master, byte[] file) {
        byte[] space = master.clone();
        int[] lines = new int[Math.max(file.length / Line.WIDTH - 1, 0)];
        long[] listed = new long[1];
        Calls.post(space, master.length / Row.WIDTH, file, lines, listed);
        return new Posted(space, Arrays.copyOf(lines, (int) listed[0]));
    }

    /** A file turned from ASCII into EBCDIC. */
    public static byte[] toEbcdic(byte[] file) {
        byte[] out = new byte[file.length];
        Calls.toEbcdic(file, out, new long[1]);
        return out;
    }

    /** A file turned from EBCDIC into ASCII. */
    public static byte[] toAscii(byte[] file) {
        byte[] out = new byte[file.length];
        Calls.toAscii(file, out, new long[1]);
        return out;
    }

    /** Reads a contact file into a table. */
    public static Updated contactsUpdate(byte[] table, byte[] file) {
        int records = file.length / Contact.WIDTH;
        byte[] space = Arrays.copyOf(table, Math.toIntExact(table.length + (long) Contact.WIDTH * records));
        int[] faulty = new int[records];
        long[] result = new long[2];
        Calls.contactsUpdate(space, table.length / Contact.WIDTH, file, faulty, result);
        return new Updated(Arrays.copyOf(space, Contact.WIDTH * (int) result[0]), Arrays.copyOf(faulty, (int) result[1]));
    }

    /** The local codes of a state, all but 000: a list as {@link #apply} takes it. */
    public static String contactsCodes(byte[] table, String state) {
        int count = table.length / Contact.WIDTH;
        byte[] out = new byte[LOCAL_CODE * count];
        long[] codes = new long[1];
        Calls.contactsCodes(table, count, ebcdic(state), out, codes);
        return Columns.text(out, 1, LOCAL_CODE * (int) codes[0]);
    }

    /** The C, L, R and M records that lead from a row to a wanted row. */
    public static List<Detail> recordsTo(Row row, Row wanted, String locals) {
        byte[] out = new byte[4 * Detail.WIDTH];
        long[] records = new long[1];
        Calls.recordsTo(row.write(), wanted.write(), ebcdic(locals), out, records);
        IntStream places = IntStream.range(0, (int) records[0]);
        return places.mapToObj(i -> Detail.read(Arrays.copyOfRange(out, i * Detail.WIDTH, (i + 1) * Detail.WIDTH))).toList();
    }
}
