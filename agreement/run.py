#!/usr/bin/env python3
"""Runs the fixed cases over an engine: a shared library with the calls of fantanolive.h, or a program that speaks the line protocol.

    run.py [--prefix NAME_] [--calls NAME,..] ENGINE [FILE..]

Without files the cases are those of the folder cases beside this script. Each case that differs is told with the sentence that it is
there for. The exit status is 0 where all are as they must be, 1 where one differs, 3 where the engine can't be run. README.md
describes the cases and the protocol. Python 3.8 or later, and nothing else."""

import ctypes
import os
import select
import subprocess
import sys
import time

TIME_LIMIT = 10.0
GUARD = b"\xb7" * 64

BYTES, WORDS32, WORDS64, COUNT = "bytes", "u32", "u64", "count"
MASTER = ("master", BYTES, True)
READ_MASTER = ("master", BYTES, False)
ROWS = ("rows", COUNT, False)
APPLY = [MASTER, ROWS, ("batch", BYTES, False), ("locals", BYTES, False), ("year", COUNT, False),
         ("verdicts", WORDS64, True), ("rejects", BYTES, True)]

# The arguments of each call: name, kind, whether it is written; the results stand last and have no length.
CALLS = {
    "apply": (APPLY, "result"),
    "apply_journaled": (APPLY + [("journal", BYTES, True)], "result"),
    "take_back": ([MASTER, ROWS, ("journal", BYTES, False)], "rows_after"),
    "totals": ([("batch", BYTES, False)], "totals"),
    "merge": ([("first", BYTES, False), ("second", BYTES, False), ("out", BYTES, True)], "records"),
    "find": ([READ_MASTER, ROWS, ("key", BYTES, False)], "place"),
    "find_many": ([READ_MASTER, ROWS, ("keys", BYTES, False), ("places", WORDS32, True)], "comparisons"),
    "reconcile": ([READ_MASTER, ROWS, ("state", BYTES, False), ("date", BYTES, False), ("out", BYTES, True)], "records"),
    "pages": ([READ_MASTER, ROWS, ("out", BYTES, True)], "pages"),
    "add_cents": ([MASTER, ROWS], None),
    "post": ([MASTER, ROWS, ("file", BYTES, False), ("lines", WORDS32, True)], "listed"),
    "to_ebcdic": ([("in", BYTES, False), ("out", BYTES, True)], "place"),
    "to_ascii": ([("in", BYTES, False), ("out", BYTES, True)], "place"),
    "contacts_update": ([("table", BYTES, True), ("count", COUNT, False), ("file", BYTES, False),
                         ("faulty", WORDS32, True)], "result"),
    "contacts_codes": ([("table", BYTES, False), ("count", COUNT, False), ("state", BYTES, False),
                        ("out", BYTES, True)], "codes"),
    "records_to": ([("row", BYTES, False), ("wanted", BYTES, False), ("locals", BYTES, False), ("out", BYTES, True)],
                   "records"),
}
WIDTHS = {BYTES: 1, WORDS32: 4, WORDS64: 8}


def arguments(call):
    """Name, kind and whether it is written, of each argument in order."""
    buffers, results = CALLS[call]
    return buffers + ([(results, WORDS64, True)] if results else [])


# --- The text of cases.

CHARACTERS = {" ": 0x40, "-": 0x60, ",": 0x6B, ".": 0x4B, "(": 0x4D, ")": 0x5D, "/": 0x61, "&": 0x50, "'": 0x7D, "#": 0x7B}
for _first, _byte in (("A", 0xC1), ("J", 0xD1), ("S", 0xE2), ("0", 0xF0)):
    for _number in range({"A": 9, "J": 9, "S": 8, "0": 10}[_first]):
        CHARACTERS[chr(ord(_first) + _number)] = _byte + _number


def ebcdic(text):
    return bytes(CHARACTERS[character] for character in text)


class Case:
    """A case of a file: `values` and `left` hold bytes or, for a number, an int, by the argument's name."""

    def __init__(self, name):
        self.name, self.sentence, self.call = name, "", None
        self.values, self.left, self.answer = {}, {}, None


def record_in(line):
    """The bytes of one line of a buffer: [TIMES x ]LENGTH[ of HH] COLUMN:"TEXT" COLUMN:HEX .."""
    times = 1
    words = line.split(" ", 2)
    if len(words) == 3 and words[1] == "x":
        times, line = int(words[0]), words[2]
    length, _, rest = line.partition(" ")
    ground = 0x40
    if rest.startswith("of "):
        ground, rest = int(rest[3:5], 16), rest[6:]
    record = bytearray([ground]) * int(length)
    while rest:
        column, _, rest = rest.partition(":")
        if rest.startswith('"'):
            end = rest.index('"', 1)
            piece, rest = ebcdic(rest[1:end]), rest[end + 2:]
        else:
            digits, _, rest = rest.partition(" ")
            piece = bytes.fromhex(digits)
        start = int(column) - 1
        if start < 0 or start + len(piece) > len(record):
            raise ValueError("outside the record: " + line)
        record[start:start + len(piece)] = piece
    return bytes(record) * times


def numbers_in(words):
    numbers = []
    for word in words:
        times, x, number = word.rpartition("x")
        numbers += [int(number)] * (int(times) if x else 1)
    return numbers


class Reader:
    def __init__(self, path):
        with open(path, encoding="ascii") as file:
            self.lines = file.read().split("\n")
        self.path, self.at = path, 0

    def next(self):
        while self.at < len(self.lines):
            self.at += 1
            line = self.lines[self.at - 1]
            if line.strip() and not line.startswith("#"):
                return line
        return None

    def value(self, kind, text):
        if kind == COUNT:
            return int(text)
        words = text.split()
        if words[1] == "numbers":
            numbers = numbers_in(words[2:])
            if len(numbers) != int(words[0]):
                raise ValueError("other numbers than told")
            return b"".join(number.to_bytes(WIDTHS[kind], "little") for number in numbers)
        value = b""
        while self.at < len(self.lines) and self.lines[self.at].startswith("  "):
            value += record_in(self.lines[self.at][2:])
            self.at += 1
        if len(value) != int(words[0]):
            raise ValueError("another length than told")
        return value

    def case(self, name):
        case = Case(name)
        line = self.next()
        while not line.startswith("call "):
            if line.startswith("sentence "):
                case.sentence = line[9:]
            line = self.next()
        case.call = line[5:]
        kinds = {name: kind for name, kind, _ in arguments(case.call)}
        line = self.next()
        while line != "end":
            word, _, rest = line.partition(" ")
            if word == "answer":
                case.answer = int(rest)
            elif word == "left":
                word, _, rest = rest.partition(" ")
                case.left[word] = self.value(kinds[word], rest)
            else:
                case.values[word] = self.value(kinds[word], rest)
            line = self.next()
        return case

    def cases(self):
        try:
            line = self.next()
            while line is not None:
                if not line.startswith("case "):
                    raise ValueError("`case` is wanted here")
                yield self.case(line[5:])
                line = self.next()
        except (ValueError, KeyError, IndexError, AttributeError) as error:
            raise SystemExit("%s, line %d: %s" % (self.path, self.at, error))


# --- The line protocol.

def as_line(name, kind, value):
    if kind == COUNT:
        text = str(value)
    elif kind == BYTES:
        text = value.hex()
    else:
        width = WIDTHS[kind]
        numbers = (value[at:at + width] for at in range(0, len(value), width))
        text = " ".join(str(int.from_bytes(number, "little")) for number in numbers)
    return "%s %s\n" % (name, text)


def of_line(kind, text):
    if kind == COUNT:
        return int(text)
    if kind == BYTES:
        return bytes.fromhex(text)
    return b"".join(int(word).to_bytes(WIDTHS[kind], "little") for word in text.split())


class Failed(Exception):
    """The engine came to no answer."""


class Engine:
    """A process that speaks the line protocol; it is started again where it ends."""

    def __init__(self, command):
        self.command, self.process, self.rest = command, None, b""
        self.start()

    def start(self):
        self.rest = b""
        self.process = subprocess.Popen(self.command, stdin=subprocess.PIPE, stdout=subprocess.PIPE, stderr=subprocess.DEVNULL)
        os.set_blocking(self.process.stdin.fileno(), False)
        line = self.ask("calls\n", 1)[0]
        if not line.startswith("calls"):
            raise Failed(line)
        self.calls = line.split()[1:]

    def stop(self):
        self.process.kill()
        status = self.process.wait()
        self.process.stdin.close()
        self.process.stdout.close()
        self.process = None
        return status

    def ended(self, words):
        try:
            self.process.wait(timeout=0.5)
        except subprocess.TimeoutExpired:
            pass
        status = self.stop()
        if words is None:
            words = "it crashed (signal %d)" % -status if status < 0 else "it ended with status %d" % status
        raise Failed(words)

    def ask(self, text, count=None):
        """Writes lines, and reads so many, or those before `done`."""
        end = time.monotonic() + TIME_LIMIT
        sent, lines = text.encode("ascii"), []
        while True:
            while b"\n" in self.rest:
                line, self.rest = self.rest.split(b"\n", 1)
                line = line.decode("ascii", "replace").rstrip()
                if line == "done":
                    return lines
                lines.append(line)
                if len(lines) == count:
                    return lines
            left = end - time.monotonic()
            writers = [self.process.stdin] if sent else []
            ready = select.select([self.process.stdout], writers, [], max(left, 0))
            if left <= 0 or not (ready[0] or ready[1]):
                self.ended("it gave no answer in %d seconds" % TIME_LIMIT)
            try:
                if ready[1]:
                    sent = sent[os.write(self.process.stdin.fileno(), sent[:65536]):]
                if ready[0]:
                    more = os.read(self.process.stdout.fileno(), 1 << 20)
                    if not more:
                        self.ended(None)
                    self.rest += more
            except OSError:
                self.ended(None)

    def run(self, case):
        """The answer, and what is left by the argument's name."""
        if self.process is None:
            self.start()
        text = "call %s\n" % case.call
        kinds = {}
        for name, kind, written in arguments(case.call):
            text += as_line(name, kind, case.values[name])
            kinds[name] = kind if written else None
        answer, left = None, {}
        for line in self.ask(text + "go\n"):
            name, _, value = line.partition(" ")
            if name == "answer":
                answer = int(value)
            elif name == "spilled":
                raise Failed("it wrote outside " + value)
            elif kinds.get(name):
                left[name] = of_line(kinds[name], value)
            else:
                raise Failed("a line of another form: " + line[:60])
        if answer is None:
            raise Failed("no answer")
        return answer, left


# --- A shared library, served by this script in a process of its own.

def lend(value):
    memory = ctypes.create_string_buffer(len(value) + 2 * len(GUARD) + 16)
    start = -(-(ctypes.addressof(memory) + len(GUARD)) // 8) * 8
    ctypes.memmove(start - len(GUARD), GUARD + value + GUARD, len(value) + 2 * len(GUARD))
    return memory, start


def call_library(function, call, values):
    words, lent = [], []
    for name, kind, written in arguments(call):
        if kind == COUNT:
            words.append(ctypes.c_uint64(values[name]))
            continue
        memory, start = lend(values[name])
        lent.append((name, kind, written, values[name], memory, start))
        words.append(ctypes.c_void_p(start))
        if name != CALLS[call][1]:
            words.append(ctypes.c_uint64(len(values[name]) // WIDTHS[kind]))
    function.restype = ctypes.c_uint64
    answer = function(*words)
    text = "answer %d\n" % answer
    for name, kind, written, value, memory, start in lent:
        around = ctypes.string_at(start - len(GUARD), len(value) + 2 * len(GUARD))
        inside = around[len(GUARD):-len(GUARD)]
        if around[:len(GUARD)] != GUARD or around[-len(GUARD):] != GUARD or not written and inside != value:
            return "spilled %s\n" % name
        if written:
            text += as_line(name, kind, inside)
    return text


def serve(path, prefix):
    library = ctypes.CDLL(path)
    functions = {call: getattr(library, prefix + call, None) for call in CALLS}
    values, call = {}, None
    for line in sys.stdin:
        word, _, rest = line.rstrip("\n").partition(" ")
        if word == "calls":
            sys.stdout.write("calls %s\n" % " ".join(call for call in CALLS if functions[call]))
        elif word == "call":
            call, values = rest, {}
            kinds = {name: kind for name, kind, _ in arguments(call)}
        elif word == "go":
            sys.stdout.write(call_library(functions[call], call, values) + "done\n")
        else:
            values[word] = of_line(kinds[word], rest)
        sys.stdout.flush()


# --- The run.

def difference(case, engine):
    """What is wrong in words, or None."""
    try:
        answer, left = engine.run(case)
    except Failed as failure:
        return str(failure)
    if answer != case.answer:
        return "answer %d, not %d" % (answer, case.answer)
    for name, kind, written in arguments(case.call):
        wanted = case.left.get(name, case.values[name])
        found = left.get(name, case.values[name])
        if found == wanted:
            continue
        if len(found) != len(wanted):
            return "%s has another length" % name
        width = WIDTHS[kind]
        at = next(at for at in range(len(wanted)) if found[at] != wanted[at]) // width * width
        if width == 1:
            end = min(at + 8, len(wanted))
            return "%s from byte %d on: %s, not %s" % (name, at, found[at:end].hex(), wanted[at:end].hex())
        numbers = [int.from_bytes(value[at:at + width], "little") for value in (found, wanted)]
        return "%s, number %d: %d, not %d" % (name, at // width, numbers[0], numbers[1])
    return None


def files_of(given):
    folder = os.path.join(os.path.dirname(os.path.abspath(__file__)), "cases")
    given = given or [folder]
    files = []
    for path in given:
        if os.path.isdir(path):
            files += sorted(os.path.join(path, name) for name in os.listdir(path) if name.endswith(".txt"))
        else:
            files.append(path)
    return files


def engine_of(path, prefix):
    name = os.path.basename(path)
    if name.endswith(".so") or ".so." in name:
        return Engine([sys.executable, os.path.abspath(__file__), "--serve", os.path.abspath(path), prefix])
    return Engine([os.path.abspath(path)])


def main(given):
    if given[:1] == ["--serve"]:
        return serve(given[1], given[2])
    options = {"--prefix": "fantanolive_", "--calls": ",".join(CALLS)}
    while given and given[0] in options:
        options[given[0]], given = given[1], given[2:]
    if not given or given[0].startswith("-"):
        print(__doc__, file=sys.stderr)
        return 3
    try:
        engine = engine_of(given[0], options["--prefix"])
    except (OSError, Failed) as error:
        print("run.py: %s: %s" % (given[0], error), file=sys.stderr)
        return 3
    wanted = [call for call in options["--calls"].split(",") if call in engine.calls]
    lacking = [call for call in CALLS if call not in engine.calls]
    count = differ = skipped = 0
    for path in files_of(given[1:]):
        for case in Reader(path).cases():
            if case.call not in wanted:
                skipped += 1
                continue
            count += 1
            what = difference(case, engine)
            if what:
                differ += 1
                print("%s (%s): %s\n  %s" % (case.name, case.call, what, case.sentence))
    if lacking:
        print("calls that it lacks: " + ", ".join(lacking))
    if engine.process:
        engine.stop()
    print("%d cases, %d differ, %d left out" % (count, differ, skipped))
    return 1 if differ else 0 if count else 3


if __name__ == "__main__":
    sys.exit(main(sys.argv[1:]))
