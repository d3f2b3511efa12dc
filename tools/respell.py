#!/usr/bin/env python3
"""Brings the names of definitions, fields and lemmas to the spelling of today's Rattle: snake case, and a dash only between two names.

usage: python3 tools/respell.py        at the top of the repository, once, right after port.py

It reads the declarations of specs/ and of the lemma files in proofs/, and writes each of their names anew wherever it stands as a whole
word: in .antt files, in the clauses of .rt files, in the must-fail edits and, between backticks, in the documents. Names of functions of
src/, exported C names, strings and the names that Rattle makes keep their spelling. Where two names would fall together the lemma gets
`_lem`. CHOSEN has names whose spelling no rule gives.
"""
import collections
import os
import re
import sys

WORD = re.compile(r"(?<![\w'′-])[A-Za-zℕ][\w'′]*(?:-[\w'′]+)*(?![\w'′])")
STD = set("length take drop map append set put zip replicate cons nil suc zero add sub mul le lt eq sum filter reverse cond not and or mod div pow".split())
CHOSEN = {
    "behind-code": "behind_code",
    "behind-last": "behind_last",
    "behind-arrearage": "behind_arrearage",
    "not-deleted": "not_deleted",
    "isZeroBalance": "is_zero_balance",
    "rowKeyAt": "row_key_at",
    "nonOut": "non_out",
    "nonWarned": "non_warned",
    "noText": "no_text",
    "row-in": "row_inside",
    "rec-widths": "rec_widths_lem",
}
KEEP = {"ref-ptr", "ghost-name", "get_or-set_same", "get_or-set_other"}


def files(root):
    for folder, dirs, names in os.walk(os.path.join(root, "crates")):
        dirs[:] = sorted(d for d in dirs if d != "out")
        for n in sorted(names):
            yield os.path.join(folder, n)


def kind(path):
    parts = path.split("/crates/")[1].split("/")
    if not path.endswith(".antt"):
        return None
    if parts[1] == "specs":
        return "specs"
    return "lemma" if len(parts) == 3 else "function"


def declared(root):
    """Names that specs/ and lemma files declare: name -> set of 'definition', 'field', 'lemma', 'local'."""
    found = collections.defaultdict(set)
    for path in files(root):
        where = kind(path)
        if where not in ("specs", "lemma"):
            continue
        record, local = False, False
        for line in open(path, encoding="utf-8"):
            if line.startswith(("use ", "--")) or not line.strip():
                continue
            m = re.match(r"^( *)((?:(?:pub|abbrev|unfoldable|private|pattern|data|record) )*)(\S+)((?: \S.*?)?) :(?: |$)", line)
            if re.match(r"^\S", line):
                record = bool(re.match(r"^(?:pub )?(?:record|data) ", line))
            if not m:
                continue
            name = m[3]
            if not re.match(r"^[a-z]", name) or name in ("let", "in", "where"):
                continue
            if m[1]:
                found[name].add("field" if record else "local")
            else:
                found[name].add("lemma" if where == "lemma" and "abbrev" not in m[2] and "unfoldable" not in m[2] else "definition")
    return found


def snake(word):
    return re.sub(r"(?<=[a-z0-9_'])([A-Z])", lambda m: ("" if m.string[m.start() - 1] == "_" else "_") + m[1], word).lower() if re.match(r"^[a-z]", word) and re.search("[A-Z]", word) else word


def spelled(name, names):
    parts = [snake(p) for p in name.split("-")]
    out = parts[0]
    for i, p in enumerate(parts[1:], 1):
        both = out.split("-")[-1] in names and ("_".join(parts[i:]) in names or p in names)
        out += ("-" if both else "_") + p
    return out


def mapping(root):
    found = declared(root)
    names = STD | {snake(n) for n, k in found.items() if "definition" in k and "-" not in n}
    taken = collections.defaultdict(set)
    for n in found:
        taken[n].add(n)
    turned = {}
    for n in sorted(found):
        if n in KEEP:
            continue
        new = spelled(n, names)
        if new != n:
            turned[n] = new
    back = collections.defaultdict(list)
    for n in found:
        back[turned.get(n, n)].append(n)
    fallen = {new: olds for new, olds in back.items() if len(olds) > 1}
    return found, turned, fallen


def decide(root):
    """Old name -> new name."""
    found, turned, fallen = mapping(root)
    for new, olds in fallen.items():
        if not any("definition" in found[o] for o in olds):
            continue
        for o in olds:
            if "definition" in found[o] or found[o] == {"field"}:
                continue
            turned[o] = new + "_lem"
    turned.update(CHOSEN)
    return {o: n for o, n in turned.items() if o != n}


def foreign(root):
    """Names that are imported from other than this repository's crates."""
    own = {c for c in os.listdir(os.path.join(root, "crates"))}
    out = set()
    for path in files(root):
        if not path.endswith((".antt", ".rt")):
            continue
        text = open(path, encoding="utf-8").read()
        for m in re.finditer(r"(?m)^(?:ghost )?(?:pub )?use ([\w.'◌+-]+)\.\{([^}]*)\}", text):
            parts = m[1].split(".")
            if not (parts[0] == "Rattle" and len(parts) > 1 and parts[1] in own):
                out |= {w.strip().split(" as ")[0] for w in m[2].split(",")}
    return out


def ticks(text, turn):
    return re.sub(r"`[^`\n]+`", lambda m: turn(m[0]), text)


def antt(text, turn):
    out = []
    for line in text.split("\n"):
        m = re.search(r"(?:^|\s)--(?:\s|$)", line)
        at = m.start() if m else len(line)
        out.append(turn(line[:at]) + ticks(line[at:], turn))
    return "\n".join(out)


def rust(text, turn):
    out = []
    for line in text.split("\n"):
        m = re.search(r"(?:^|\s)//(?:\s|$)", line)
        at = m.start() if m else len(line)
        code = "".join(p if p.startswith('"') else turn(p) for p in re.split(r'("(?:[^"\\]|\\.)*")', line[:at]))
        out.append(code + ticks(line[at:], turn))
    return "\n".join(out)


def edit(text, turn):
    code = re.match(r"(?s)(.*)", text)[0].split("\n")
    return "\n".join(turn(l) if l.startswith(("old: ", "new: ")) else ticks(l, turn) for l in code)


def main():
    root = os.getcwd()
    turned = decide(root)
    clash = set(turned) & foreign(root)
    for n in sorted(clash):
        print("left: also a name of the library:", n)
        del turned[n]
    turn = lambda s: WORD.sub(lambda m: turned.get(m[0], m[0]), s)
    # A name of src/ may be a lemma's too: in .rt files and edits only what is no Rust name is turned.
    in_code = {o: n for o, n in turned.items() if "-" in o or re.search("[A-Z]", o)}
    turn_code = lambda s: WORD.sub(lambda m: in_code.get(m[0], m[0]), s)
    n = 0
    paths = list(files(root))
    for folder in ("docs", "tests"):
        for top, dirs, names in os.walk(os.path.join(root, folder)):
            dirs[:] = [d for d in dirs if d not in ("target", "out")]
            paths += [os.path.join(top, x) for x in names if x.endswith((".md", ".sh", ".txt"))]
    paths += [os.path.join(root, x) for x in ("README.md", "CONTRIBUTING.md")]
    for p in paths:
        if not p.endswith((".antt", ".rt", ".edit", ".md", ".sh", ".txt")):
            continue
        text = open(p, encoding="utf-8").read()
        new = (antt if p.endswith(".antt") else rust if p.endswith(".rt") else edit if p.endswith(".edit") else turn_page(p))(text, turn_code if p.endswith((".rt", ".edit")) else turn)
        if new != text:
            n += 1
            with open(p, "w", encoding="utf-8") as f:
                f.write(new)
    print(len(turned), "names spelled anew in", n, "files")


def turn_page(path):
    return ticks if path.endswith(".md") else (lambda text, turn: text if path.endswith(".sh") else turn(text))


if __name__ == "__main__":
    main()
