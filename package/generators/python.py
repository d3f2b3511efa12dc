"""bindings/python/fantanolive/layouts.py: a dataclass for each layout."""
from . import table

HEAD = '''"""Rows and records as dataclasses: every field a str without the spaces at its end, but the exclusion set of a row, an int.

Written by bin/generate-layouts from package/layouts.json; not to be edited.

    row = Row.read(master[:200])
    row.last_name, row.arrearage_number
    row.write()

What was read is written as the same bytes, whatever they are. A number is None where the columns aren't digits. Nothing is judged
here: that is the part of the calls. repr() shows no SSN."""
import dataclasses
from typing import ClassVar, Dict, Optional, Tuple, Type

from ._records import Field, Record, cents_of, digits_of, number_of

__all__ = [%s]

# The names of the exclusions in the set of a row, the lowest bit first.
EXCLUSIONS = (%s)
'''


def described(field):
    held = f": {field['holds']}" if field["holds"] else ""
    return f"{field['title']}, {table.columns(field)}{held}"


def constants(layout):
    lines = [f'    NAME: ClassVar[str] = "{layout["name"]}"', f"    WIDTH: ClassVar[int] = {layout['width']}"]
    lines.append("    FIELDS: ClassVar[Tuple[Field, ...]] = (")
    for field in layout["fields"]:
        lines.append(f'        Field("{field["name"]}", "{field["title"]}", {field["first"]}, {field["last"]}, "{field["kind"]}"),')
    return lines + ["    )"]


def numbers(layout):
    lines = []
    for field in layout["fields"]:
        what = table.NUMBERS.get(field["kind"])
        if not what:
            continue
        name, width = field["name"], table.width(field)
        meant = "in cents" if what == "cents" else "as a number"
        lines += [
            "",
            "    @property",
            f"    def {name}_{what}(self) -> Optional[int]:",
            f'        """{field["title"]} {meant}; None where it isn\'t {width} digits."""',
            f"        return {what}_of(self.{name}, {width})",
            "",
            f"    @{name}_{what}.setter",
            f"    def {name}_{what}(self, number: int) -> None:",
            f'        self.{name} = digits_of("{name}", number, {width})',
        ]
    return lines


def layout_text(layout):
    lines = ["", "", "@dataclasses.dataclass(repr=False)", f"class {table.pascal(layout['name'])}(Record):"]
    lines += [f'    """{table.what(layout)}."""', ""] + constants(layout) + [""]
    for field in layout["fields"]:
        kind = "int = 0" if field["kind"] == "set" else 'str = ""'
        lines += [f"    # {described(field)}", f"    {field['name']}: {kind}"]
    return "\n".join(lines + numbers(layout))


def files():
    layouts = table.layouts()
    names = ["EXCLUSIONS", "Field", "LAYOUTS", "Record"] + [table.pascal(layout["name"]) for layout in layouts]
    quoted = ", ".join(f'"{name}"' for name in sorted(names))
    head = HEAD % (quoted, ", ".join(f'"{name}"' for name in table.exclusions()))
    classes = "".join(f'    "{layout["name"]}": {table.pascal(layout["name"])},\n' for layout in layouts)
    tail = f"\n\n# The layouts by their names.\nLAYOUTS: Dict[str, Type[Record]] = {{\n{classes}}}\n"
    text = head + "\n".join(layout_text(layout) for layout in layouts) + tail
    return {"bindings/python/fantanolive/layouts.py": text}
