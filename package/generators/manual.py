"""The tables of docs/MANUAL.md, "Rows and records, column by column": all but the words around them."""
import re

from . import table

MANUAL = "docs/MANUAL.md"
HEAD = "| columns | field | what it holds |\n|---|---|---|\n"

# Layouts of which the library reads some fields alone; those are in bold type.
READ_IN_PART = ("line", "total")


def row(layout, field):
    title = field["title"]
    if layout["name"] in READ_IN_PART and field["definition"]:
        title = f"**{title}**"
    return " ".join(["|", table.columns(field), "|", title, "|"] + ([field["holds"], "|"] if field["holds"] else ["|"])) + "\n"


def rows(layout):
    """A row for each field; a group that says what it holds stands for its fields."""
    told = [group for group in layout["groups"] if "holds" in group]
    inside = [n for group in told for n in range(group["first"], group["last"] + 1)]
    shown = told + [field for field in layout["fields"] if field["first"] not in inside]
    return "".join(row(layout, field) for field in sorted(shown, key=lambda field: field["first"]))


def replaced(text, layout):
    """The manual with the table below the layout's heading."""
    heading = f"### {layout['title']} ({layout['width']} bytes)\n"
    before, after = text.split(heading)
    form = re.compile(re.escape(HEAD) + r"(?:\|.*\n)+")
    return before + heading + form.sub(lambda _: HEAD + rows(layout), after, count=1)


def files():
    text = (table.ROOT / MANUAL).read_text("utf-8")
    for layout in table.layouts():
        text = replaced(text, layout)
    return {MANUAL: text}
