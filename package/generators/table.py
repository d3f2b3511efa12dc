"""The table of layouts, package/layouts.json, and the code page."""
import json
import pathlib

ROOT = pathlib.Path(__file__).resolve().parents[2]
SOURCE = ROOT / "package" / "layouts.json"

# What the numbers of a kind are called in the names of functions.
NUMBERS = {"number": "number", "amount": "cents"}


def layouts():
    """The layouts, in their order."""
    return json.loads(SOURCE.read_text("ascii"))["layouts"]


def exclusions():
    """The names of the exclusions, the lowest bit first."""
    return json.loads(SOURCE.read_text("ascii"))["exclusions"]


def width(field):
    return field["last"] - field["first"] + 1


def columns(field):
    """A field's columns as the charts give them."""
    first, last = field["first"], field["last"]
    return str(first) if first == last else f"{first}-{last}"


def pascal(name):
    return "".join(part.capitalize() for part in name.split("_"))


def camel(name):
    word = pascal(name)
    return word[0].lower() + word[1:]


def what(layout):
    """A layout in words: title, chart and width."""
    return f"{layout['title']} ({layout['chart']}, {layout['width']} bytes)"


def characters():
    """The character of each EBCDIC byte in code page 037: all 256, each a different one of the first 256 of Unicode."""
    found = list(bytes(range(256)).decode("cp037").encode("latin-1"))
    assert sorted(found) == list(range(256))
    return found


def codes():
    """The EBCDIC byte of each of the first 256 characters of Unicode."""
    return list(bytes(range(256)).decode("latin-1").encode("cp037"))


def rows_of_numbers(numbers, indent, form="0x{:02X}"):
    """Numbers in lines of sixteen, a comma behind each."""
    lines = []
    for start in range(0, len(numbers), 16):
        lines.append(indent + ", ".join(form.format(n) for n in numbers[start : start + 16]) + ",")
    return "\n".join(lines)
