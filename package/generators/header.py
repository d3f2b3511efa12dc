"""The C headers as they are read here: the calls with their arguments, the numbers, the refusals and the words."""
import re

from . import table


def text(name="fantanolive.h"):
    return (table.ROOT / "include" / name).read_text("ascii")


def arguments(prototype):
    """The arguments of a prototype: (name, type, whether it is written, whether a length stands behind it)."""
    found = []
    for part in re.sub(r"\s+", " ", prototype).split(", "):
        part = part.strip()
        array = re.fullmatch(r"(const )?(uint\d+_t) (?:\*(\w+)|(\w+)\[\w+\])", part)
        if array:
            found.append([array[3] or array[4], array[2], not array[1], False])
        elif part.endswith("_length"):
            found[-1][3] = True
        else:
            kind, name = part.split(" ")
            found.append([name, kind + " value", False, False])
    return found


def prototypes():
    """The names of the calls, and what stands between their parentheses."""
    return re.findall(r"^uint64_t fantanolive_(\w+)\(([^)]*)\);", text(), re.M)


def calls():
    """The calls: their names, and their arguments."""
    return [(name, arguments(prototype)) for name, prototype in prototypes()]


def numbers():
    """The constants that are a number, by their names without FANTANOLIVE_ in front."""
    return {name: int(number) for name, number in re.findall(r"^#define FANTANOLIVE_(\w+) (\d+)(?: |$)", text(), re.M)}


def result_sizes():
    """How many numbers the result of a call has, by the call's name; one where the header gives no array."""
    sizes = {}
    for name, prototype in prototypes():
        array = re.search(r"\[FANTANOLIVE_(\w+)\]", prototype)
        sizes[name] = numbers()[array[1]] if array else 1
    return sizes


def answers():
    """The refusals' names, numbers and comments."""
    part = text().split("/* The answers:", 1)[1].split("\n\n", 1)[0]
    return [(name, int(number), comment) for name, number, comment in re.findall(r"^#define FANTANOLIVE_(\w+) ([1-9]\d*) +/\* (.*) \*/$", part, re.M)]


def macro(name):
    """A constant or a macro: its arguments in parentheses or nothing, and what it stands for."""
    return re.search(rf"^#define FANTANOLIVE_{name}(\(\w+\))? (.*)$", text(), re.M).groups("")
