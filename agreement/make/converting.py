"""Files turned from ASCII into EBCDIC and back."""

from describe import Book, hold, refused, words

book = Book("converting")
PAIRS = [("space", " ", 0x40), ("hyphen", "-", 0x60), ("comma", ",", 0x6B), ("full-stop", ".", 0x4B), ("opening", "(", 0x4D), ("closing", ")", 0x5D),
         ("solidus", "/", 0x61), ("ampersand", "&", 0x50), ("apostrophe", "'", 0x7D), ("number-sign", "#", 0x7B), ("a", "A", 0xC1), ("i", "I", 0xC9),
         ("j", "J", 0xD1), ("r", "R", 0xD9), ("s", "S", 0xE2), ("z", "Z", 0xE9), ("0", "0", 0xF0), ("9", "9", 0xF9)]
SIGNS = "ABCDEFGHIJKLMNOPQRSTUVWXYZ0123456789 -,.()/&'#"
CODES = bytes.fromhex("c1c2c3c4c5c6c7c8c9d1d2d3d4d5d6d7d8d9e2e3e4e5e6e7e8e9f0f1f2f3f4f5f6f7f8f94060" "6b4b4d5d61507d7b")


def convert(name, sentences, call, given, wanted=None, room=None, place=None, answer=0):
    """By hand: what is written, or the place with 16."""
    room = len(given) if room is None else room
    values = {"in": given, "out": b"\xa5" * room, "place": words([99], 8)}

    def expect(found, left):
        hold("the answer", found, 16 if place is not None else 0)
        if place is not None:
            hold("what is left", left, {"place": words([place], 8)})
        else:
            hold("the output", left.get("out", values["out"]).hex(), (wanted + b"\xa5" * (room - len(wanted))).hex())
            hold("the place", "place" in left, False)

    book.add("%s-%s" % (call.replace("_", "-"), name), sentences, call, values, refused(answer) if answer else expect)


PAGE = ["the characters are the letters, digits", "with EBCDIC codes from the published code page"]
for name, character, code in PAIRS:
    convert(name, PAGE, "to_ebcdic", character.encode(), bytes([code]))
    if not character.isalnum():
        convert(name, PAGE, "to_ascii", bytes([code]), character.encode())
convert("all", ["offices hold their files in ASCII", "a table of 256 entries each way"], "to_ebcdic", SIGNS.encode(), CODES)
convert("all", ["offices hold their files in ASCII", "conversion there and back"], "to_ascii", CODES, SIGNS.encode())
convert("empty", "offices hold their files in ASCII", "to_ebcdic", b"", b"")
convert("empty", "offices hold their files in ASCII", "to_ascii", b"", b"")
NONE = ["refusal 16, a byte without a counterpart", "a table of 256 entries each way"]
for byte in (0x00, 0x0A, 0x2A, 0x40, 0x5B, 0x61, 0x69, 0x7A, 0x80, 0xFF):
    convert("no-counterpart-%02x" % byte, NONE, "to_ebcdic", b"A" + bytes([byte]), place=1)
for byte in (0x00, 0x41, 0x7A, 0x81, 0xC0, 0xCA, 0xE1, 0xFA):
    convert("no-counterpart-%02x" % byte, NONE, "to_ascii", b"\xc1" + bytes([byte]), place=1)
FIRST = "refusal 16, a byte without a counterpart"
convert("first-of-two", FIRST, "to_ebcdic", b"aAAb", place=0)
convert("last-byte", FIRST, "to_ebcdic", b"AAAb", place=3)
convert("second-of-two", FIRST, "to_ascii", b"\xc1\xc1\x00\x00", place=2)
SHORT = ["is checked before 17", "(demand 1) bytes behind what a call writes are kept, a refusal leaves the output"]
convert("one-short", SHORT, "to_ebcdic", b"ABC", room=2, answer=17)
convert("one-short", SHORT, "to_ascii", b"\xc1\xc2\xc3", room=2, answer=17)
convert("no-room", SHORT, "to_ebcdic", b"A", room=0, answer=17)
convert("room-behind-kept", SHORT, "to_ebcdic", b"OH", bytes([0xD6, 0xC8]), room=5)
convert("room-behind-kept", SHORT, "to_ascii", bytes([0xD6, 0xC8]), b"OH", room=5)
convert("room-behind-nothing-kept", SHORT, "to_ebcdic", b"", b"", room=3)
convert("room-behind-nothing-kept", SHORT, "to_ascii", b"", b"", room=3)
convert("bad-and-short", "is checked before 17", "to_ascii", b"\xc1\x00", room=0, place=1)
