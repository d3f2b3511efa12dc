import fantanolive.Calls;
import fantanolive.Code;
import fantanolive.Contact;
import fantanolive.Control;
import fantanolive.Detail;
import fantanolive.Exclusion;
import fantanolive.Fantanolive;
import fantanolive.Line;
import fantanolive.Refusal;
import fantanolive.Refused;
import fantanolive.Row;
import fantanolive.Total;
import java.time.LocalDate;
import java.util.Arrays;
import java.util.EnumSet;
import java.util.List;
import java.util.stream.IntStream;

/** Every call through the jar: what it answers, its refusals, and what is kept. Prints how many things held; status 1 at the first that doesn't. */
public final class CallsTest {
    private static final byte[] NONE = new byte[0];
    private static int held;

    private static void want(String what, Object found, Object wanted) {
        if (!wanted.equals(found)) {
            System.out.println("java: " + what + ": " + found + ", not " + wanted);
            System.exit(1);
        }
        held++;
    }

    private static void refused(Refusal refusal, Runnable call) {
        try {
            call.run();
        } catch (Refused refused) {
            want("refusal", refused.refusal(), refusal);
            want("number", refused.number(), (long) refusal.number());
            want("words", refused.getMessage().contains(refusal.wrong()), true);
            return;
        }
        want("refused", null, refusal);
    }

    private static void wrong(Class<? extends Exception> kind, Runnable call) {
        try {
            call.run();
        } catch (RuntimeException problem) {
            want("exception", problem.getClass(), kind);
            return;
        }
        want("exception", null, kind);
    }

    private static Detail detail(String name, long dollars, String type) {
        return Detail.blank().withState("OH").withSsn("123456789").withLastName(name).withFirstName("JOHN")
                .withTransactionType(type).withCaseType("N").withArrearageNumber(dollars);
    }

    private static byte[] batch() {
        return Fantanolive.makeBatch("OH", List.of(detail("SMITH", 25, "A"), detail("SMYTH", 100, "M")));
    }

    private static byte[] file(byte[]... records) {
        int length = IntStream.range(0, records.length).map(i -> records[i].length).sum();
        byte[] file = new byte[length];
        int at = 0;
        for (byte[] record : records) {
            System.arraycopy(record, 0, file, at, record.length);
            at += record.length;
        }
        return file;
    }

    private static void batches() {
        Fantanolive.Applied applied = Fantanolive.apply(NONE, batch(), "", 2007);
        want("counts", applied.counts(), new Fantanolive.Counts(1, 1, 0, 0, 1));
        want("codes", Fantanolive.codesOf(applied.verdicts()[1]), List.of(Code.CODE_17));
        want("rejects", applied.rejects().length, 490);
        want("no SSN", applied.toString().contains("123456789") || Row.read(applied.master()).toString().contains("12345"), false);
        Fantanolive.Applied journaled = Fantanolive.applyJournaled(NONE, batch(), "", 2007);
        want("the same master", Arrays.equals(applied.master(), journaled.master()), true);
        want("journal", Arrays.toString(journaled.journal()), "[0, 1, 0, 0]");
        want("taken back", Fantanolive.takeBack(applied.master(), journaled.journal()).length, 0);
        want("totals", Fantanolive.totals(batch()), new Fantanolive.Totals(0, 2, 0, 125));
        want("merged", Arrays.equals(Fantanolive.merge(batch(), Fantanolive.makeBatch("OH", List.of())), batch()), true);
        refused(Refusal.WRONG_YEAR, () -> Fantanolive.apply(NONE, batch(), "", 1899));
        refused(Refusal.WRONG_LOCALS, () -> Fantanolive.apply(NONE, batch(), "01", 2007));
        refused(Refusal.WRONG_MASTER, () -> Fantanolive.apply(new byte[7], batch(), "", 2007));
        refused(Refusal.UNSOUND_ROW, () -> Fantanolive.apply(new byte[200], batch(), "", 2007));
        refused(Refusal.WRONG_BATCH, () -> Fantanolive.apply(NONE, NONE, "", 2007));
        refused(Refusal.NO_CTL, () -> Fantanolive.apply(NONE, new byte[245], "", 2007));
        refused(Refusal.WRONG_JOURNAL, () -> Fantanolive.takeBack(NONE, new byte[] {1}));
        refused(Refusal.CANNOT_MERGE, () -> Fantanolive.merge(batch(), Fantanolive.makeBatch("AL", List.of())));
    }

    private static void lookups() {
        byte[] master = Fantanolive.apply(NONE, batch(), "", 2007).master();
        want("place", Fantanolive.find(master, "OH123456789N"), 0L);
        Fantanolive.FoundMany found = Fantanolive.findMany(master, List.of("OH123456789A", "OH123456789N"));
        want("places", Arrays.toString(found.places()), "[" + Fantanolive.NO_PLACE + ", 0]");
        want("reconciliation", Fantanolive.reconcile(master, "OH", LocalDate.of(2007, 12, 31)).length, 490);
        want("pages", Fantanolive.pages(master).length, 3 * 132);
        Row row = Row.read(master);
        List<Detail> records = Fantanolive.recordsTo(row, row.withArrearageNumber(30), "");
        want("records", records.size() + " " + records.get(0).transactionType() + " " + records.get(0).arrearageNumber().getAsLong(), "1 M 30");
        want("exclusions", Exclusion.of(row.withExclusions(0x22).exclusions()), EnumSet.of(Exclusion.RET, Exclusion.PAS));
        refused(Refusal.UNSOUND_KEY, () -> Fantanolive.find(master, "oh"));
        refused(Refusal.NO_SUCH_ROW, () -> Fantanolive.find(master, "OH123456789A"));
        refused(Refusal.WRONG_KEYS, () -> Fantanolive.findMany(master, List.of("OH123456789N", "OH123456789N")));
        refused(Refusal.WRONG_STATE, () -> Fantanolive.reconcile(master, "XX", LocalDate.of(2007, 12, 31)));
        refused(Refusal.NO_RECORDS, () -> Fantanolive.recordsTo(row, row.withCents("01"), ""));
        wrong(IllegalArgumentException.class, () -> Fantanolive.find(master, "OH12345678\u0660N"));
    }

    private static void otherFiles() {
        byte[] master = Fantanolive.apply(NONE, batch(), "", 2007).master();
        Line line = Line.blank().withState("OH").withSsn("123456789").withCaseType("N").withCollectionCents(1001).withAdjustmentCents(0);
        byte[] total = Total.blank().withMark("TOTAL").withAdjustmentsNumber(0).withCollectionsNumber(2).write();
        Fantanolive.Posted posted = Fantanolive.post(master, file(line.write(), line.withSsn("987654321").write(), total));
        want("listed", Arrays.toString(posted.listed()), "[2]");
        want("balance", Row.read(posted.master()).arrearage() + Row.read(posted.master()).cents(), "0000001499");
        Contact contact = Contact.blank().withState("OH").withLocalCode("025").withTelephone1("(614) 555-0100")
                .withAgencyName("COUNTY CHILD SUPPORT AGENCY").withAddressLine1("7 MAIN STREET").withAddressLine4("COLUMBUS OH 43215");
        Fantanolive.Updated updated = Fantanolive.contactsUpdate(NONE, file(contact.write(), contact.withLocalCode("X").write()));
        want("faulty", Arrays.toString(updated.faulty()), "[2]");
        want("local codes", Fantanolive.contactsCodes(updated.table(), "OH"), "025");
        want("there and back", new String(Fantanolive.toAscii(Fantanolive.toEbcdic("A-1".getBytes())), java.nio.charset.StandardCharsets.US_ASCII), "A-1");
        want("cents", Fantanolive.addCents(NONE).length, 0);
        refused(Refusal.WRONG_FILE, () -> Fantanolive.post(master, NONE));
        refused(Refusal.WRONG_TOTAL, () -> Fantanolive.post(master, file(line.write())));
        refused(Refusal.WRONG_CONTACTS, () -> Fantanolive.contactsUpdate(new byte[220], NONE));
        refused(Refusal.UNSOUND_ROW, () -> Fantanolive.addCents(master));
        try {
            Fantanolive.toEbcdic("AB\n".getBytes());
        } catch (Refused refused) {
            want("place", refused.place(), 2L);
        }
    }

    /** Arrays that are lent: nothing is written with a refusal, and arrays that can't be lent are told. */
    private static void lending() {
        byte[] master = new byte[400];
        long[] verdicts = {7, 7};
        byte[] rejects = new byte[735];
        long[] result = {9, 9, 9, 9, 9};
        refused(Refusal.SHORT_VERDICTS, () -> Calls.apply(master, 0, batch(), NONE, 2007, new long[1], rejects, result));
        refused(Refusal.NO_ROOM, () -> Calls.apply(NONE, 0, batch(), NONE, 2007, verdicts, rejects, result));
        refused(Refusal.SHORT_OUTPUT, () -> Calls.apply(master, 0, batch(), NONE, 2007, verdicts, new byte[734], result));
        want("kept", Arrays.equals(master, new byte[400]) && Arrays.equals(rejects, new byte[735]) && verdicts[0] == 7 && result[0] == 9, true);
        Calls.apply(master, 0, batch(), NONE, 2007, verdicts, rejects, result);
        want("written", Arrays.toString(result) + Arrays.toString(verdicts), "[1, 1, 0, 0, 1][0, 131072]");
        want("kept behind", Arrays.equals(Arrays.copyOfRange(master, 200, 400), new byte[200]), true);
        wrong(NullPointerException.class, () -> Calls.find(null, 0, NONE, result));
        wrong(IllegalArgumentException.class, () -> Calls.find(master, -1, NONE, result));
        wrong(IllegalArgumentException.class, () -> Calls.find(master, 1, NONE, new long[0]));
        wrong(IllegalArgumentException.class, () -> Calls.totals(batch(), new long[3]));
        wrong(IllegalArgumentException.class, () -> Row.blank().withCity("A CITY WITH A NAME TOO LONG").write());
        wrong(IllegalArgumentException.class, () -> Control.blank().withTanfRecordsNumber(1_000_000_000));
        wrong(IllegalArgumentException.class, () -> Row.read(new byte[199]));
    }

    private static void threads() throws InterruptedException {
        Thread[] threads = new Thread[4];
        boolean[] right = new boolean[threads.length];
        for (int i = 0; i < threads.length; i++) {
            int own = i;
            threads[i] = new Thread(() -> right[own] = IntStream.range(0, 200).allMatch(n -> Fantanolive.apply(NONE, batch(), "", 2007).counts().rows() == 1));
            threads[i].start();
        }
        for (Thread thread : threads) {
            thread.join();
        }
        want("threads", Arrays.toString(right), "[true, true, true, true]");
    }

    public static void main(String[] arguments) throws InterruptedException {
        want("version", Fantanolive.version(), arguments[0]);
        batches();
        lookups();
        otherFiles();
        lending();
        threads();
        System.out.println("java: " + held + " held");
    }
}
