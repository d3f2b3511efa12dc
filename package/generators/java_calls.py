"""The calls of fantanolive.h for Java: bindings/java/native/calls.c (JNI), Native.java and Calls.java; and the refusals and codes
in words, Refusal.java and Code.java."""
import re

from . import header, table
from .java import FOLDER, WRITTEN

KINDS = {"uint8_t": ("b", "jbyteArray", "byte[]"), "uint32_t": ("i", "jintArray", "int[]"), "uint64_t": ("l", "jlongArray", "long[]")}


def c_function(name, given):
    parameters = ["JNIEnv *env", "jclass type"]
    lines, passed = ["    struct lent lent = {env, 0, 0, {{0}}};"], []
    for argument, kind, written, has_length in given:
        if kind.endswith("value"):
            parameters.append(f"jlong {argument}")
            passed.append(f"({kind.split()[0]}){argument}")
            continue
        letter, java, _ = KINDS[kind]
        parameters.append(f"{java} {argument}")
        const = "" if written else "const "
        lines.append(f"    {const}{kind} *lent_{argument} = lend(&lent, {argument}, '{letter}', {int(written)});")
        passed.append(f"lent_{argument}" + (f", length(env, {argument})" if has_length else ""))
    lines += ["    (void)type;", "    if (lent.failed) return answered(&lent, NOT_LENT);"]
    body = "\n".join(lines + [f"    return answered(&lent, fantanolive_{name}(\n        " + ",\n        ".join(passed) + "));"])
    wanted = ",\n    ".join(parameters)
    return f"JNIEXPORT jlong JNICALL Java_fantanolive_Native_{table.camel(name)}(\n    {wanted})\n{{\n{body}\n}}\n"


def c_file():
    text = f"/* The native methods of fantanolive.Native, one call each. {WRITTEN.replace('package/layouts.json', 'fantanolive.h')} */\n"
    text += '#include "lending.h"\n\n' + "\n".join(c_function(*call) for call in header.calls())
    return text + """
JNIEXPORT jstring JNICALL Java_fantanolive_Native_version(JNIEnv *env, jclass type)
{
    (void)type;
    return (*env)->NewStringUTF(env, fantanolive_version());
}
"""


def java_parameters(given):
    kinds = [("long" if kind.endswith("value") else KINDS[kind][2], table.camel(name)) for name, kind, _, _ in given]
    return ", ".join(f"{kind} {name}" for kind, name in kinds)


def native():
    methods = "\n".join(f"    static native long {table.camel(name)}({java_parameters(given)});\n" for name, given in header.calls())
    return f"""package fantanolive;

/** The native methods, one call of the library each. {WRITTEN.replace('package/layouts.json', 'fantanolive.h')} */
final class Native {{
    static {{
        Loader.load();
    }}

    private Native() {{}}

    static native String version();

{methods}}}
"""


def call_method(name, given):
    names = [table.camel(argument) for argument, _, _, _ in given]
    arrays = [table.camel(argument) for argument, kind, _, _ in given if not kind.endswith("value")]
    checks = "".join(f"        Objects.requireNonNull({array}, \"{array}\");\n" for array in arrays)
    for argument, kind, _, has_length in given:
        if kind == "uint64_t" and not has_length:
            checks += f'        Checks.atLeast("{table.camel(argument)}", {table.camel(argument)}.length, {header.result_sizes()[name]});\n'
        elif kind.endswith("value"):
            checks += f'        Checks.notNegative("{table.camel(argument)}", {table.camel(argument)});\n'
    place = "place[0]" if "place" in names and name.startswith("to_") else "-1"
    return f"""
    /** The call fantanolive_{name}, in the arrays that are lent. */
    public static void {table.camel(name)}({java_parameters(given)}) {{
{checks}        Checks.done("{name}", Native.{table.camel(name)}({', '.join(names)}), {place});
    }}
"""


def calls_class():
    methods = "".join(call_method(*call) for call in header.calls())
    return f"""package fantanolive;

import java.util.Objects;

/**
 * The calls of fantanolive.h over arrays that the caller lends: an array has its own length, and what a call writes it writes
 * into the array. Numbers of the result go into the last array. A refusal is thrown as {{@link Refused}}, and nothing was
 * written then. {WRITTEN.replace('package/layouts.json', 'fantanolive.h')}
 */
public final class Calls {{
    private Calls() {{}}
{methods}}}
"""


def entries(name):
    """The entries of a table of fantanolive_text.h."""
    body = header.text("fantanolive_text.h").split(name + "[] = {\n", 1)[1].split("\n};", 1)[0]
    return re.findall(r'\{(\d+),\n     "([^"]*)",\n     "([^"]*)",\n     "([^"]*)"\}', body)


def refusals():
    names = {str(number): name for name, number, _ in header.answers()}
    return [(names[number], number, wrong, where, mend) for number, wrong, where, mend in entries("fantanolive_refusal_texts")]


def words(comment, name, members):
    listed = ",\n".join(f'    {member}({number}, "{wrong}",\n            "{where}",\n            "{mend}")' for member, number, wrong, where, mend in members)
    return f"""package fantanolive;

/** {comment} {WRITTEN.replace('package/layouts.json', 'fantanolive_text.h')} */
public enum {name} {{
{listed};

    private final int number;
    private final String wrong;
    private final String where;
    private final String mend;

    {name}(int number, String wrong, String where, String mend) {{
        this.number = number;
        this.wrong = wrong;
        this.where = where;
        this.mend = mend;
    }}

    /** Its number. */
    public int number() {{
        return number;
    }}

    /** What is wrong. */
    public String wrong() {{
        return wrong;
    }}

    /** Where: which columns, or which argument. */
    public String where() {{
        return where;
    }}

    /** How to fix it. */
    public String mend() {{
        return mend;
    }}

    /** The one of a number; null for a number that has none. */
    public static {name} of(long number) {{
        for ({name} one : values()) {{
            if (one.number == number) {{
                return one;
            }}
        }}
        return null;
    }}
}}
"""


def files():
    codes = [(f"CODE_{int(number):02d}", number, *rest) for number, *rest in entries("fantanolive_code_texts")]
    return {
        "bindings/java/native/calls.c": c_file(),
        f"{FOLDER}/Native.java": native(),
        f"{FOLDER}/Calls.java": calls_class(),
        f"{FOLDER}/Refusal.java": words("Why a call was refused.", "Refusal", refusals()),
        f"{FOLDER}/Code.java": words("What a detail got for a fault: errors 1 to 18, warnings 51 and 52.", "Code", codes),
    }
