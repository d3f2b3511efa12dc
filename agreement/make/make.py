#!/usr/bin/env python3
"""Makes agreement/cases from the descriptions of this folder.

    make.py LIBRARY REFERENCE [--check]

LIBRARY is libfantanolive.so, REFERENCE the reference engine behind the C interface. Each description's hand-worked part is held
against what the library leaves, and every byte against the reference. With --check nothing is written: the status is 1 where the files
aren't those of the descriptions. docs/RULES.md gives the sentences in full."""

import importlib
import os
import sys

FOLDER = os.path.dirname(os.path.abspath(__file__))
sys.path.insert(0, FOLDER)
import describe  # noqa: E402
import run  # noqa: E402

ROOT = os.path.dirname(os.path.dirname(FOLDER))
SUBJECTS = ["characters", "rows", "errors", "machine", "batches", "orders", "finding", "reconciling", "converting", "contacts",
            "posting", "journals", "records", "pages", "merging", "effects"]
WIDTHS = {"master": 200, "row": 200, "wanted": 200, "batch": 245, "first": 245, "second": 245, "rejects": 245, "out": 245,
          "file": 240, "table": 220, "keys": 12, "locals": 3}
OTHER_WIDTHS = {("contacts_update", "file"): 220, ("pages", "out"): 132, ("contacts_codes", "out"): 3, ("to_ebcdic", "in"): 64,
                ("to_ebcdic", "out"): 64, ("to_ascii", "in"): 64, ("to_ascii", "out"): 64}
CHARACTERS = {byte: character for character, byte in run.CHARACTERS.items()}


# --- Sentences.

def sentences():
    """The sentences of docs/RULES.md: section and words."""
    found, section, table = [], "", False
    with open(os.path.join(ROOT, "docs", "RULES.md"), encoding="utf-8") as file:
        for line in file:
            if line.startswith("## "):
                section = line[3:].strip()
            elif line.startswith("| "):
                cell = line[2:].split(" | ")[0]
                if cell == "sentence":
                    table = True
                elif table:
                    found.append((section, cell))
            else:
                table = table and line.startswith("|-")
    return found


def named(known, start):
    """The one sentence that begins so; a part of the section's name may stand before a bar."""
    part, bar, words = start.rpartition("|")
    fits = [one for one in known if one[1].startswith(words) and part in one[0]]
    if not fits:
        raise SystemExit("docs/RULES.md has no sentence that begins: " + start)
    return fits[0]


def plain(words):
    """A sentence in ASCII."""
    signs = {"–": "-", "−": "-", "÷": "/", "×": "x", "≤": "<=", "…": "..", "’": "'", "“": '"', "”": '"', "`": ""}
    return "".join(signs.get(sign, sign) for sign in words).encode("ascii", "replace").decode()


# --- The text of cases.

def items(record, ground, as_text):
    def is_text(byte):
        return as_text and byte in CHARACTERS

    shown, at = [], 0
    while at < len(record):
        if record[at] == ground:
            at += 1
            continue
        words, end = is_text(record[at]), at
        while end < len(record):
            while end < len(record) and record[end] != ground and is_text(record[end]) == words:
                end += 1
            gap = end
            while gap < len(record) and record[gap] == ground:
                gap += 1
            goes_on = words and ground == 0x40 and end < gap <= end + 2 and gap < len(record) and is_text(record[gap])
            if not goes_on:
                break
            end = gap
        piece = record[at:end]
        value = '"%s"' % "".join(CHARACTERS[byte] for byte in piece) if words else piece.hex()
        shown.append(" %d:%s" % (at + 1, value))
        at = end
    return "".join(shown)


def record_line(record, as_text):
    most = max(set(record), key=record.count)
    ground = most if 2 * record.count(most) > len(record) else 0x40
    of = "" if ground == 0x40 else " of %02x" % ground
    return "%d%s%s" % (len(record), of, items(record, ground, as_text))


def joined(parts, several):
    """The same several times in a row as one."""
    shown, at = [], 0
    while at < len(parts):
        end = at
        while end < len(parts) and parts[end] == parts[at]:
            end += 1
        shown.append(parts[at] if end - at == 1 else several % (end - at, parts[at]))
        at = end
    return shown


def argument(call, name, kind, value):
    if kind == run.COUNT:
        return "%s %d\n" % (name, value)
    width = run.WIDTHS[kind]
    if width > 1:
        numbers = [str(number) for number in describe.numbers(value, width)]
        return "%s %d numbers%s\n" % (name, len(numbers), "".join(" " + one for one in joined(numbers, "%dx%s")))
    size = OTHER_WIDTHS.get((call, name), WIDTHS.get(name, 64))
    as_text = (call, name) not in (("to_ebcdic", "in"), ("to_ascii", "out")) and name != "journal"
    records = [record_line(value[at:at + size], as_text) for at in range(0, len(value), size)]
    lines = "".join("  %s\n" % line for line in joined(records, "%d x %s"))
    return "%s %d bytes\n%s" % (name, len(value), lines)


def written(case, answer, left, known):
    text = "case %s\n" % case.name
    for start in case.sentences:
        section, words = named(known, start)
        document = "02" if section.startswith("Document 02") else "01"
        text += "sentence %s | %s | %s\n" % (document, plain(section.replace("Document 02, ", "")), plain(words))
    text += "call %s\n" % case.call
    kinds = run.arguments(case.call)
    for name, kind, _ in kinds:
        text += argument(case.call, name, kind, case.values[name])
    text += "answer %d\n" % answer
    for name, kind, _ in kinds:
        if name in left:
            text += "left " + argument(case.call, name, kind, left[name])
    return text + "end\n"


# --- The work.

def outcome(engine, case):
    answer, left = engine.run(case)
    return answer, {name: value for name, value in left.items() if value != case.values[name]}


def made(library, reference, known):
    """The text of each file by its name."""
    files, wrong, count, names = {}, 0, 0, set()
    for number, subject in enumerate(SUBJECTS, 1):
        book = importlib.import_module(subject).book
        texts = []
        for case in book.cases:
            count += 1
            try:
                if case.name in names:
                    raise describe.Wrong("a name that another case has")
                names.add(case.name)
                answer, left = outcome(library, case)
                case.expect(answer, left)
                if (answer, left) != outcome(reference, case):
                    raise describe.Wrong("the reference leaves something else")
                texts.append(written(case, answer, left, known))
            except (describe.Wrong, run.Failed, KeyError, IndexError, ValueError) as error:
                wrong += 1
                print("%s: %s" % (case.name, error))
        files["%02d-%s.txt" % (number, subject)] = "\n".join(texts)
    print("%d cases, %d wrong" % (count, wrong))
    return files, wrong


def main(given):
    check = "--check" in given
    paths = [one for one in given if one != "--check"]
    if len(paths) != 2:
        print(__doc__, file=sys.stderr)
        return 3
    engines = [run.engine_of(path, "fantanolive_") for path in paths]
    files, wrong = made(engines[0], engines[1], sentences())
    folder = os.path.join(os.path.dirname(FOLDER), "cases")
    os.makedirs(folder, exist_ok=True)
    if wrong:
        return 1
    for name in sorted(set(files) | set(os.listdir(folder))):
        path = os.path.join(folder, name)
        old = open(path, encoding="ascii").read() if os.path.exists(path) else None
        new = files.get(name)
        if old == new:
            continue
        if check:
            print("agreement/cases/%s isn't that of the descriptions: run agreement/make/make.py" % name)
            wrong = 1
        elif new is None:
            os.remove(path)
        else:
            with open(path, "w", encoding="ascii") as file:
                file.write(new)
    return 1 if wrong else 0


if __name__ == "__main__":
    sys.exit(main(sys.argv[1:]))
