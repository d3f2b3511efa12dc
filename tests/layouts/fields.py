"""fields.py LAYOUT: what tests/layouts/fields.c prints of the records on standard input, by the Python dataclasses."""
import sys

from fantanolive.layouts import LAYOUTS

layout = LAYOUTS[sys.argv[1]]
for record in layout.read_all(sys.stdin.buffer.read()):
    other = layout()
    for field in layout.FIELDS:
        value = getattr(record, field.name)
        setattr(other, field.name, value)
        if field.kind == "set":
            print(field.name, "", value)
            continue
        number = None
        if field.kind in ("number", "amount"):
            what = field.name + {"number": "_number", "amount": "_cents"}[field.kind]
            number = getattr(record, what)
            if number is not None and field.kind == "number":
                setattr(other, what, number)
        print(field.name, value.encode("latin-1").hex(), "-" if number is None else number)
    print("=", other.write().hex())
