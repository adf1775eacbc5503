#!/usr/bin/env python3
"""spelling.py [--list]: brings the repository's own definitions and lemmas to the spelling of today's library.

Words are in snake case. The words of a name are joined by `_`: a dash would join the names of two definitions, and our lemmas
are named in words of their own. Types, constructors, functions of src/ and what Rattle makes keep their names. In comments and pages only what
stands in backquotes or in a block of code is turned. A name that would fall together with another gets the suffix of OWN.
"""
import glob
import re
import sys

# Names whose snake case is a definition's name already: what they are called instead. Fields and the lemmas that give them get `_ok`, other lemmas `_lem`.
OWN = {
    "first-in": "first_ok",
    "later-in": "later_ok",
    "lock-in": "lock_ok",
    "point-in": "point_ok",
    "seen-in": "seen_ok",
    "zeros-in": "zeros_ok",
    "fed-from": "fed_from_lem",
    "first-zero": "first_zero_lem",
    "g-now": "g_now_lem",
    "gross-now": "gross_now_lem",
    "in-range": "in_range_lem",
    "net-now": "net_now_lem",
    "settings-in": "settings_in_lem",
    "settled-as": "settled_as_lem",
    "v-now": "v_now_lem",
    "zeros-now": "zeros_now_lem",
    # what port.py had turned already
    "point_at": "point_at_lem",
    "sample_in": "sample_in_lem",
    "scale_in": "scale_in_lem",
}

NAME = r"[A-Za-z_ℤ≤<][\w'ℤℕ≤<+*]*(?:-[\w'ℤℕ≤<+*]+)*"
TOKEN = re.compile(NAME)
DECLARED = re.compile(r"^\s*(?:(?:abbrev|unfoldable|pub|opaque)\s+)*((?:" + NAME + r"\s+)*" + NAME + r")\s*:(?=\s)", re.M)


def read(path):
    with open(path, encoding="utf-8") as it:
        return it.read()


def own_files():
    """The files of definitions and lemmas: those whose names are ours to spell."""
    return sorted(glob.glob("crates/*/specs/*.antt") + glob.glob("crates/*/proofs/*.antt"))


def snake(word):
    """A word in snake case; what begins with a capital is a type's or a constructor's."""
    if not re.match(r"[a-z_]", word):
        return word
    return re.sub(r"(?<=[a-z0-9'])([A-Z])", lambda it: "_" + it[1].lower(), word)


def code_of(text):
    return "\n".join(line.split("--")[0] for line in text.split("\n"))


def gather():
    names = set()
    for path in own_files():
        code = code_of(read(path))
        for it in DECLARED.finditer(code):
            names.update(it[1].split())
        names.update(it for it in TOKEN.findall(code) if "-" not in it and re.match(r"[a-z]", it) and re.search(r"[A-Z]", it))
    return names


def spelled(name):
    """The new spelling of one name."""
    return "_".join(map(snake, name.split("-")))


def mapping():
    names = gather()
    return {it: OWN.get(it, spelled(it)) for it in names | set(OWN) if OWN.get(it, spelled(it)) != it}


def turned(text, table):
    return TOKEN.sub(lambda it: table.get(it[0], it[0]), text)


def quoted(text, table):
    """Prose: only what stands in backquotes."""
    return re.sub(r"`[^`\n]*`", lambda it: turned(it[0], table), text)


def antt(text, table):
    lines = []
    for line in text.split("\n"):
        code, mark, said = line.partition("--")
        lines.append(turned(code, table) + mark + quoted(said, table))
    return "\n".join(lines)


def rust(text, table):
    lines = []
    for line in text.split("\n"):
        code, mark, said = line.partition("//")
        clause = re.match(r"\s*(ghost use|requires|ensures)\b", code)
        lines.append((turned(code, table) if clause else code) + mark + quoted(said, table))
    return "\n".join(lines)


def edit(text, table):
    lines, path = [], ""
    for line in text.split("\n"):
        if line.startswith("file: "):
            path = line
        head, mark, rest = line.partition(": ")
        if head in ("old", "new") and mark:
            line = head + mark + (antt(rest, table) if path.endswith(".antt") else rust(rest, table) if "ensures" in rest or "ghost use" in rest else rest)
        lines.append(line)
    return "\n".join(lines)


def page(text, table):
    """A page of docs/: blocks of code whole, else what stands in backquotes."""
    lines, inside = [], False
    for line in text.split("\n"):
        if line.startswith("```"):
            inside = not inside
        lines.append(turned(line, table) if inside else quoted(line, table))
    return "\n".join(lines)


def main():
    table = mapping()
    if "--list" in sys.argv:
        for old in sorted(table):
            print(old, table[old])
        return
    for path in sorted(glob.glob("crates/**/*", recursive=True) + ["README.md"] + glob.glob("docs/**/*.md", recursive=True)):
        if "/out/" in path:
            continue
        how = antt if path.endswith(".antt") else rust if path.endswith(".rt") else edit if path.endswith(".edit") else page if path.endswith(".md") else None
        if how is None:
            continue
        text = read(path)
        now = how(text, table)
        if now != text:
            with open(path, "w", encoding="utf-8") as it:
                it.write(now)


if __name__ == "__main__":
    main()
