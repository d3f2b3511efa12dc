"""The COBOL copybooks, package/cobol: a record's fields from level 05 on, in fixed format."""
from . import table

PREFIXES = {
    "row": "ROW", "detail": "DTL", "control": "CTL", "reject": "REJ", "reject_control": "RJC", "rec": "REC", "rct": "RCT",
    "contact": "CON", "line": "LIN", "total": "TOT", "page_line": "PGL", "page_heading": "PGH", "page_foot": "PGF",
}

HEAD = """      *> {what}.
      *> Written from layouts.json; not to be edited. To be copied
      *> below an item of level 01 to 04. Other names in front come by
      *> COPY "{file}"
      *>     REPLACING LEADING =={prefix}-== BY ==OTHER-==.
      *> Digits (PIC 9) are to be read in the program's own characters:
      *> turn a record from EBCDIC first.
"""

SET = """      *> {prefix}-EXCLUSIONS is a byte of bits and no character: leave it
      *> out of every conversion.
"""


def picture(field):
    """The PICTURE of a field."""
    count = table.width(field)
    if field["kind"] == "number":
        return f"9({count})"
    if field["kind"] == "amount":
        return f"9({count - 2})V99"
    return f"X({count})"


def item(level, prefix, field):
    name = "FILLER" if field["kind"] == "filler" else f"{prefix}-{field['name'].upper().replace('_', '-')}"
    indent = " " * (11 if level == 5 else 15)
    line = f"{indent}{level:02d}  {name} PIC {picture(field)}."
    if len(line) > 72:
        line = f"{indent}{level:02d}  {name}\n{indent}    PIC {picture(field)}."
    return line


def items(layout):
    """The fields in order; those of a group stand one level below it."""
    prefix, lines = PREFIXES[layout["name"]], []
    groups = {group["first"]: group for group in layout["groups"]}
    end = 0
    for field in layout["fields"]:
        group = groups.get(field["first"])
        if group:
            end = group["last"]
            lines.append(f"           05  {prefix}-{group['name'].upper().replace('_', '-')}.")
        lines.append(item(10 if field["last"] <= end else 5, prefix, field))
    return "\n".join(lines) + "\n"


def copybook(layout, file):
    prefix = PREFIXES[layout["name"]]
    head = HEAD.format(what=table.what(layout), file=file, prefix=prefix)
    if any(field["kind"] == "set" for field in layout["fields"]):
        head += SET.format(prefix=prefix)
    return head + items(layout)


def files():
    made = {}
    for layout in table.layouts():
        file = f"fantanolive-{layout['name'].replace('_', '-')}.cpy"
        made[f"package/cobol/{file}"] = copybook(layout, file)
    return made
