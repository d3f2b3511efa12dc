import fantanolive.Field;
import fantanolive.Layout;
import java.io.PrintStream;
import java.nio.charset.StandardCharsets;
import java.util.HexFormat;
import java.util.OptionalLong;

/** Fields LAYOUT..: what tests/layouts/fields.c prints of the records in LAYOUT.bin, by the Java records, into LAYOUT.java. */
public final class Fields {
    private static final HexFormat HEX = HexFormat.of();

    private static String pascal(String name) {
        StringBuilder word = new StringBuilder();
        for (String part : name.split("_")) {
            word.append(Character.toUpperCase(part.charAt(0))).append(part.substring(1));
        }
        return word.toString();
    }

    private static Object call(Object on, String method) throws ReflectiveOperationException {
        return on.getClass().getMethod(method).invoke(on);
    }

    /** The other record with this field; a number is put by its value. */
    private static Layout pass(Field field, Object value, Layout record, Layout other, PrintStream out)
            throws ReflectiveOperationException {
        String name = pascal(field.name());
        if (value instanceof Integer set) {
            out.println(field.name() + "  " + set);
            return (Layout) other.getClass().getMethod("with" + name, int.class).invoke(other, set);
        }
        String text = (String) value;
        OptionalLong number = OptionalLong.empty();
        String camel = Character.toLowerCase(name.charAt(0)) + name.substring(1);
        if (field.kind() == Field.Kind.NUMBER) {
            number = (OptionalLong) call(record, camel + "Number");
        } else if (field.kind() == Field.Kind.AMOUNT) {
            number = (OptionalLong) call(record, camel + "Cents");
        }
        String shown = number.isPresent() ? Long.toString(number.getAsLong()) : "-";
        out.println(field.name() + " " + HEX.formatHex(text.getBytes(StandardCharsets.ISO_8859_1)) + " " + shown);
        if (number.isPresent() && field.kind() == Field.Kind.NUMBER) {
            return (Layout) other.getClass().getMethod("with" + name + "Number", long.class).invoke(other, number.getAsLong());
        }
        return (Layout) other.getClass().getMethod("with" + name, String.class).invoke(other, text);
    }

    private static void passAll(String name) throws Exception {
        Class<?> layout = Class.forName("fantanolive." + pascal(name));
        int width = layout.getField("WIDTH").getInt(null);
        byte[] file = java.nio.file.Files.readAllBytes(java.nio.file.Path.of(name + ".bin"));
        try (PrintStream out = new PrintStream(name + ".java")) {
            for (int start = 0; start < file.length; start += width) {
                byte[] bytes = java.util.Arrays.copyOfRange(file, start, start + width);
                Layout record = (Layout) layout.getMethod("read", byte[].class).invoke(null, (Object) bytes);
                Layout other = (Layout) layout.getMethod("blank").invoke(null);
                for (int i = 0; i < record.fields().size(); i++) {
                    other = pass(record.fields().get(i), record.values().get(i), record, other, out);
                }
                out.println("= " + HEX.formatHex(other.write()));
            }
        }
    }

    public static void main(String[] names) throws Exception {
        for (String name : names) {
            passAll(name);
        }
    }
}
