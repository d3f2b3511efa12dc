package fantanolive;

import java.util.List;

/** A row or record: its fields, and its bytes. */
public interface Layout {

    /** The fields, in order and without gaps. */
    List<Field> fields();

    /** The values of the fields in their order: a String without the spaces at its end, or an Integer for an exclusion set. */
    List<Object> values();

    /**
     * The record in EBCDIC (code page 037), spaces behind each text.
     *
     * @throws IllegalArgumentException where a text doesn't fit its columns, or has a character that EBCDIC has not
     */
    default byte[] write() {
        return Columns.write(fields(), values());
    }
}
