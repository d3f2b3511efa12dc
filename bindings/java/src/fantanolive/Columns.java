package fantanolive;

import java.util.ArrayList;
import java.util.List;
import java.util.OptionalLong;
import java.util.regex.Pattern;

/** How the fields of records are read, written and shown. */
final class Columns {
    private static final byte SPACE = 0x40;
    private static final String SIGNED = "{ABCDEFGHI";
    private static final Pattern SSN = Pattern.compile("\\d(?:-?\\d){8,}");
    private static final Pattern HIDDEN = Pattern.compile("\\d(?=(?:-?\\d){4})");

    private Columns() {}

    /** The bytes of a record, which must have so many. */
    static byte[] checked(byte[] record, int width) {
        if (record.length != width) {
            throw new IllegalArgumentException("a record has " + width + " bytes, not " + record.length);
        }
        return record;
    }

    /** Reads columns as text, without the spaces at their end. */
    static String text(byte[] record, int first, int last) {
        int end = last;
        while (end >= first && record[end - 1] == SPACE) {
            end--;
        }
        StringBuilder text = new StringBuilder();
        for (int column = first; column <= end; column++) {
            text.append(CodePage.CHARACTERS.charAt(record[column - 1] & 0xFF));
        }
        return text.toString();
    }

    static byte[] write(List<Field> fields, List<Object> values) {
        byte[] record = new byte[fields.get(fields.size() - 1).last()];
        for (int i = 0; i < fields.size(); i++) {
            put(record, fields.get(i), values.get(i));
        }
        return record;
    }

    private static void put(byte[] record, Field field, Object value) {
        if (value instanceof Integer set) {
            if (set < 0 || set > 255) {
                throw new IllegalArgumentException(field.name() + " must be from 0 to 255");
            }
            record[field.first() - 1] = (byte) (int) set;
            return;
        }
        String text = (String) value;
        if (text.length() > field.width()) {
            throw new IllegalArgumentException(field.name() + " does not fit its " + field.width() + " columns");
        }
        for (int i = 0; i < field.width(); i++) {
            record[field.first() - 1 + i] = i < text.length() ? code(field, text.charAt(i)) : SPACE;
        }
    }

    private static byte code(Field field, char character) {
        int code = CodePage.CHARACTERS.indexOf(character);
        if (code < 0) {
            throw new IllegalArgumentException(field.name() + " has a character that EBCDIC has not");
        }
        return (byte) code;
    }

    /** The number of a text of so many digits. */
    static OptionalLong number(String text, int width) {
        if (text.length() != width || !text.chars().allMatch(c -> c >= '0' && c <= '9')) {
            return OptionalLong.empty();
        }
        return OptionalLong.of(Long.parseLong(text));
    }

    /** The cents of a text of so many digits, the last of which may carry a plus sign. */
    static OptionalLong cents(String text, int width) {
        if (text.isEmpty()) {
            return OptionalLong.empty();
        }
        int signed = SIGNED.indexOf(text.charAt(text.length() - 1));
        return number(signed < 0 ? text : text.substring(0, text.length() - 1) + signed, width);
    }

    /** A number in so many digits. */
    static String digits(String name, long number, int width) {
        String text = String.format("%0" + width + "d", number);
        if (number < 0 || text.length() > width) {
            throw new IllegalArgumentException(name + " does not fit its " + width + " columns");
        }
        return text;
    }

    /** A record for people who debug: its fields that aren't blank, without SSNs. */
    static String shown(String name, Layout record) {
        List<String> parts = new ArrayList<>();
        for (int i = 0; i < record.fields().size(); i++) {
            Object value = record.values().get(i);
            if (!"".equals(value)) {
                parts.add(record.fields().get(i).name() + "=" + masked(record.fields().get(i), value));
            }
        }
        return name + "[" + String.join(", ", parts) + "]";
    }

    private static Object masked(Field field, Object value) {
        if (!(value instanceof String text) || field.kind() == Field.Kind.NUMBER || field.kind() == Field.Kind.AMOUNT) {
            return value;
        }
        if (field.kind() == Field.Kind.SSN) {
            int hidden = Math.min(5, text.length());
            return "*".repeat(hidden) + text.substring(hidden);
        }
        return SSN.matcher(text).replaceAll(found -> HIDDEN.matcher(found.group()).replaceAll("*"));
    }
}
