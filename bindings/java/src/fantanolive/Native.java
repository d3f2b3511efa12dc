package fantanolive;

/** The native methods, one call of the library each. Written by bin/generate-layouts from fantanolive.h; not to be edited. */
final class Native {
    static {
        Loader.load();
    }

    private Native() {}

    static native String version();

    static native long apply(byte[] master, long rows, byte[] batch, byte[] locals, long year, long[] verdicts, byte[] rejects, long[] result);

    static native long applyJournaled(byte[] master, long rows, byte[] batch, byte[] locals, long year, long[] verdicts, byte[] rejects, byte[] journal, long[] result);

    static native long takeBack(byte[] master, long rows, byte[] journal, long[] rowsAfter);

    static native long totals(byte[] batch, long[] totals);

    static native long merge(byte[] first, byte[] second, byte[] out, long[] records);

    static native long find(byte[] master, long rows, byte[] key, long[] place);

    static native long findMany(byte[] master, long rows, byte[] keys, int[] places, long[] comparisons);

    static native long reconcile(byte[] master, long rows, byte[] state, byte[] date, byte[] out, long[] records);

    static native long pages(byte[] master, long rows, byte[] out, long[] pages);

    static native long addCents(byte[] master, long rows);

    static native long post(byte[] master, long rows, byte[] file, int[] lines, long[] listed);

    static native long toEbcdic(byte[] in, byte[] out, long[] place);

    static native long toAscii(byte[] in, byte[] out, long[] place);

    static native long contactsUpdate(byte[] table, long count, byte[] file, int[] faulty, long[] result);

    static native long contactsCodes(byte[] table, long count, byte[] state, byte[] out, long[] codes);

    static native long recordsTo(byte[] row, byte[] wanted, byte[] locals, byte[] out, long[] records);
}
