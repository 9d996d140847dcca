#!/usr/bin/env python3
"""Brings the repository's own definitions and lemmas to one spelling.

usage: python3 tools/rename_words.py [--list]      at the top of the repository, once

Words of specs/ and proofs/ get snake case, types keep camel case and lose their dashes, and a prime becomes an
apostrophe. Functions of src/, names that the toolchain makes, strings and data files are left as they are.
Two names that would fall together are told apart by TABLE.
"""

import os
import re
import sys

GENERATED = ("Answers.antt", "Invariants.antt", "Choices.antt", "Proof.antt")
# a lemma that would have its function's name; a word of the library that has another name now
TABLE = {
    "closed-as": "closed_as_lem",
    "half-cent": "half_cent_lem",
    "manual-formed": "manual_formed_lem",
    "getD-slots": "get_or_slots",
}
TOKEN = re.compile(r"[^\s(){}\[\];,.:\"]+")
HEAD = re.compile(r"^\s*(?:(?:pub|abbrev|unfoldable)\s+)*((?:[^\s(){}\[\];,.:]+\s+)+):\s(.*)$")
TYPE = re.compile(r"^\s*(?:(?:pub|abbrev|unfoldable)\s+)*(?:record|data)\s+([^\s(){}\[\];,.:]+)")
FIELD = re.compile(r"^\s+pub\s+([^\s(){}\[\];,.:]+)\s*:\s")
MADE = re.compile(r"^(?:goal|need)\.")


def files(root):
    for folder, below, names in os.walk(os.path.join(root, "crates")):
        below[:] = sorted(b for b in below if b != "out")
        for name in sorted(names):
            if name.endswith((".rt", ".antt")):
                yield os.path.join(folder, name)


def spelled(name):
    """The name in the new spelling."""
    if name in TABLE:
        return TABLE[name]
    name = name.replace("\u2032", "'")
    if name[0].isupper():
        return "".join(part[0].upper() + part[1:] for part in name.split("-") if part)
    name = name.replace("-", "_")
    return re.sub(r"(?<=[a-z0-9])([A-Z])", lambda m: "_" + m.group(1).lower(), name)


def code(line):
    """The line without its comment."""
    at = line.find("--")
    return line if at < 0 else line[:at]


def defined(root):
    """The names that specs/ and proofs/ define, and those among them that are fields."""
    names, fields = set(), set()
    for path in files(root):
        if not path.endswith(".antt"):
            continue
        made = os.path.basename(path) in GENERATED
        with open(path, encoding="utf-8") as f:
            for line in f:
                line = code(line)
                kind = TYPE.match(line)
                head = HEAD.match(line)
                field = FIELD.match(line)
                if kind:
                    names.add(kind.group(1))
                elif head and not (made and MADE.match(head.group(2))):
                    words = head.group(1).split()
                    if words[0] not in ("let", "in", "use", "mod", "module", "record", "data"):
                        names.update(words)
                if field:
                    fields.add(field.group(1))
    return names, fields


def renamed(names):
    shape = re.compile(r"^[A-Za-z][\w'\u2032-]*$")
    return {n: spelled(n) for n in names if shape.match(n) and spelled(n) != n}


def turn(text, table, fields, rust):
    def word(m):
        old = m.group(0)
        new = table.get(old)
        if new is None:
            return old
        dotted = m.start() > 0 and text[m.start() - 1] == "."
        if "-" in old and dotted and old not in fields:
            return old
        return new

    out, at = [], 0
    marks = re.compile(r'"(?:\\.|[^"\\\n])*"|//[^\n]*' if rust else r'"[^"\n]*"|--[^\n]*')
    for m in marks.finditer(text):
        out.append((text[at : m.start()], True))
        out.append((m.group(0), False))
        at = m.end()
    out.append((text[at:], True))
    done = []
    for piece, live in out:
        if live:
            source, text = text, piece
            done.append(TOKEN.sub(word, piece))
            text = source
        elif piece.startswith(("//", "--")):
            camel = {a: b for a, b in table.items() if "-" not in a}
            done.append(re.sub(r"[\w'\u2032]+", lambda m: camel.get(m.group(0), m.group(0)), piece))
        else:
            done.append(piece)
    return "".join(done)


def main():
    root = os.getcwd()
    names, fields = defined(root)
    table = renamed(names)
    taken = {}
    for old, new in sorted(table.items()):
        if new in taken or new in names:
            print(f"falls together: {old} and {taken.get(new, new)}", file=sys.stderr)
        taken[new] = old
    if "--list" in sys.argv[1:]:
        for old, new in sorted(table.items()):
            print(old, new)
        return
    count = 0
    for path in files(root):
        with open(path, encoding="utf-8") as f:
            text = f.read()
        new = turn(text, table, fields, path.endswith(".rt"))
        if new != text:
            count += 1
            with open(path, "w", encoding="utf-8") as f:
                f.write(new)
    print(f"{len(table)} names, {count} files")


if __name__ == "__main__":
    main()
