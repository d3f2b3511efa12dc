#!/usr/bin/env python3
"""An engine that is a program, over the line protocol of README.md: find, to_ebcdic and merge, written from the papers."""

import sys

STATES = ("AK AL AR AZ CA CO CT DC DE FL GA GU HI IA ID IL IN KS KY LA MA MD ME MI MN MO MS MT NC ND NE NH NJ NM NV NY OH OK OR PA PR RI SC SD TN "
          "TX UT VA VI VT WA WI WV WY").split()
SIGNS = {" ": 0x40, "-": 0x60, ",": 0x6B, ".": 0x4B, "(": 0x4D, ")": 0x5D, "/": 0x61, "&": 0x50, "'": 0x7D, "#": 0x7B}
MOST = 16777215


def code(character):
    """The EBCDIC code of a character, or None."""
    for first, last, start in (("A", "I", 0xC1), ("J", "R", 0xD1), ("S", "Z", 0xE2), ("0", "9", 0xF0)):
        if first <= character <= last:
            return start + ord(character) - ord(first)
    return SIGNS.get(character)


def text(words):
    return bytes(code(character) for character in words)


STATE_TABLE = {text(state) for state in STATES}
CASE_TYPES = (text("A"), text("N"))


def number(field):
    """The number that digits are, or None."""
    if any(not 0xF0 <= byte <= 0xF9 for byte in field):
        return None
    return int("".join(chr(byte - 0xC0) for byte in field))


def columns(record, first, last):
    return record[first - 1:last]


def is_sound_key(key):
    if len(key) != 12 or columns(key, 1, 2) not in STATE_TABLE or columns(key, 12, 12) not in CASE_TYPES:
        return False
    area, group, serial = number(columns(key, 3, 5)), number(columns(key, 6, 7)), number(columns(key, 8, 11))
    if None in (area, group, serial):
        return False
    return area >= 900 or area not in (0, 666) and group != 0 and serial != 0


def is_letter(byte):
    return 0xC1 <= byte <= 0xC9 or 0xD1 <= byte <= 0xD9 or 0xE2 <= byte <= 0xE9


def is_name(four):
    name = bytes(four).rstrip(b"\x40")
    return any(is_letter(byte) for byte in name) and all(is_letter(byte) or byte == 0x60 for byte in name)


def is_sound_row(row):
    fields = [number(columns(row, first, last)) for first, last in ((13, 15), (66, 73), (79, 90), (197, 198))]
    if None in fields or not is_sound_key(columns(row, 1, 12)) or not is_name(columns(row, 31, 34)):
        return False
    status = text("D") if fields[1] == 0 and fields[3] == 0 else text(" ")
    return columns(row, 196, 196) == status and columns(row, 199, 200) == text("  ")


def master_refusal(master, rows):
    if len(master) % 200 or rows > len(master) // 200 or rows > MOST:
        return 3
    keys = []
    for place in range(rows):
        row = master[200 * place:200 * place + 200]
        if not is_sound_row(row) or keys and keys[-1] >= row[:12]:
            return 4
        keys.append(row[:12])
    return 0


def find(given):
    refusal = master_refusal(given["master"], given["rows"])
    if refusal:
        return refusal, {}
    if not is_sound_key(given["key"]):
        return 14, {}
    for place in range(given["rows"]):
        if given["master"][200 * place:200 * place + 12] == given["key"]:
            return 0, {"place": [place]}
    return 15, {}


def to_ebcdic(given):
    codes = [code(chr(byte)) for byte in given["in"]]
    if None in codes:
        return 16, {"place": [codes.index(None)]}
    if len(given["out"]) < len(codes):
        return 17, {}
    return 0, {"out": bytes(codes) + given["out"][len(codes):]}


TOTALS = ((6, 14), (15, 23), (24, 34), (35, 45))


def totals(details):
    sums = [0, 0, 0, 0]
    for detail in details:
        case_type = columns(detail, 74, 74)
        if case_type not in CASE_TYPES:
            continue
        place = CASE_TYPES.index(case_type)
        sums[place] += 1
        if columns(detail, 73, 73) in (text("A"), text("M")):
            sums[place + 2] += number(columns(detail, 65, 72)) or 0
    return sums


def batch_refusal(batch):
    """The refusal and the details of a batch."""
    if not batch or len(batch) % 245 or len(batch) // 245 > MOST + 1:
        return 5, []
    records = [batch[at:at + 245] for at in range(0, len(batch), 245)]
    details, control = records[:-1], records[-1]
    stated = [number(columns(control, first, last)) for first, last in TOTALS]
    if columns(control, 3, 5) != text("CTL"):
        return 6, []
    if columns(control, 1, 2) not in STATE_TABLE:
        return 20, []
    if None in stated or columns(control, 46, 245).strip(b"\x40"):
        return 21, []
    sums = totals(details)
    if stated[:2] != sums[:2]:
        return 7, []
    return (8, []) if stated[2:] != sums[2:] else (0, details)


def merge(given):
    details = []
    for name in ("first", "second"):
        refusal, own = batch_refusal(given[name])
        if refusal:
            return refusal, {}
        details += own
    state = given["first"][-245:-243]
    sums = totals(details)
    if state != given["second"][-245:-243] or len(details) > MOST or max(sums[2:]) > 99999999999:
        return 32, {}
    if len(given["out"]) < 245 * (len(details) + 1):
        return 33, {}
    widths = [last - first + 1 for first, last in TOTALS]
    control = state + text("CTL" + "".join(str(total).zfill(width) for total, width in zip(sums, widths)))
    merged = b"".join(details) + control.ljust(245, b"\x40")
    return 0, {"out": merged + given["out"][len(merged):], "records": [len(details) + 1]}


CALLS = {"find": find, "to_ebcdic": to_ebcdic, "merge": merge}
COUNTS = ("rows", "place", "records")


def main():
    call, given = None, {}
    for line in sys.stdin:
        name, _, value = line.rstrip("\n").partition(" ")
        if name == "calls":
            print("calls " + " ".join(CALLS))
        elif name == "call":
            call, given = value, {}
        elif name == "go":
            answer, left = CALLS[call](given)
            print("answer %d" % answer)
            for argument, found in left.items():
                print(argument, found.hex() if isinstance(found, bytes) else " ".join(map(str, found)))
            print("done")
        else:
            given[name] = int(value) if name in COUNTS else bytes.fromhex(value)
        sys.stdout.flush()


if __name__ == "__main__":
    main()
