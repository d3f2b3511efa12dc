package fantanolive;

/** A field of a layout. Columns count from 1. */
public record Field(String name, String title, int first, int last, Kind kind) {

    /** What the bytes of a field are. */
    public enum Kind {
        /** Characters, spaces behind them. */
        TEXT,
        /** Digits with leading zeros. */
        NUMBER,
        /** Nine digits, not to be shown. */
        SSN,
        /** Dollars and cents: digits, two decimal places assumed, the last of which may carry a plus sign. */
        AMOUNT,
        /** One byte whose bits are exclusions; no character. */
        SET,
        /** CCYYMMDD, or blank. */
        DATE,
        /** Spaces. */
        FILLER
    }

    /** How many columns it has. */
    public int width() {
        return last - first + 1;
    }
}
