#!/usr/bin/env python3
"""Lists the lines of crates/*/src that may be places of the design pass, point by point, with a count for each pattern.

Run it at the top of the repository: `python3 tools/places.py` for the counts, `python3 tools/places.py 3` for the lines
of point 3. docs/DESIGN-PASS.md says which of these lines are places, and what became of each."""
import re
import sys
from collections import Counter, defaultdict
from pathlib import Path

FILES = sorted(Path("crates").glob("*/src/**/*.rt"))
LINES = [(f, n, s) for f in FILES for n, s in enumerate(f.read_text().split("\n"), 1)]


def grep(pattern):
    return [f"{f}:{n}: {s.strip()}" for f, n, s in LINES if re.search(pattern, s)]


def signatures():
    """Each function as (place, name, parameters without self)."""
    found = []
    for f in FILES:
        text = f.read_text()
        for m in re.finditer(r"\bfn (\w+)(?:<[^>]*>)?\(([^)]*)\)", text):
            params = [p.strip() for p in re.sub(r"\s+", " ", m.group(2)).split(",") if ":" in p]
            found.append((f"{f}:{text[:m.start()].count(chr(10)) + 1}", m.group(1), params))
    return found


def together():
    """Two parameters, by name and type, that stand together in three or more functions of a crate."""
    by = defaultdict(list)
    for place, name, params in signatures():
        crate = place.split("/")[1]
        plain = [p for p in params if not p.startswith("f: &mut fmt")]
        for i in range(len(plain)):
            for j in range(i + 1, len(plain)):
                by[crate, plain[i], plain[j]].append(f"{place} {name}")
    return [f"{c}: ({a}, {b}): {', '.join(v)}" for (c, a, b), v in sorted(by.items()) if len(v) > 2]


def repeated_facts():
    """A fact of a `requires` that stands in three or more functions of a crate, names of values left out."""
    by = defaultdict(list)
    for f, n, s in LINES:
        if m := re.search(r"requires\s*\w*\s*\{(.*)\}", s):
            fact = re.sub(r"[\w.]+\.", "", m.group(1)).strip()
            by[str(f).split("/")[1], fact].append(f"{f}:{n}")
    return [f"{c}: {fact}: {', '.join(v)}" for (c, fact), v in sorted(by.items()) if len(v) > 2]


def same_names():
    """Functions of one name, with bodies, in different impls or files of the library crates."""
    by = defaultdict(list)
    for place, name, _ in signatures():
        if place.split("/")[1] not in ("rival",):
            by[name].append(place)
    return [f"{name}: {', '.join(v)}" for name, v in sorted(by.items()) if len(v) > 1]


def answers():
    rows = []
    for f in sorted(Path("crates").glob("*/proofs/**/*.antt")):
        text = f.read_text()
        kind = "answers" if f.name == "Answers.antt" else "lemmas and invariants"
        rows += [f"{f}: {kind}"] * len(re.findall(r"^(?:abbrev |unfoldable )?(?:pub )?[\w-]+ : ", text, re.M))
    return rows


POINTS = {
    1: [("enums", lambda: grep(r"^\s*(pub(\(crate\))? )?enum ")),
        ("flags", lambda: grep(r"\b\w+: (bool|\[bool)")),
        ("numbers for kinds, codes and refusals", lambda: grep(r"\b(code|number|refusal|direction|outcome|outcomes|damage|lead): \[?(u8|u16|u64)|\) -> u16")),
        ("an option or a result taken apart by its cases", lambda: grep(r"^\s*(pub )?(None|Err\(\w*\)|Ok\(\w+\)|Some\(\w+\))( if .*)? => |let Some\(.*else \{|let Ok\(.*else \{"))],
    2: [("functions of one name", same_names),
        ("impls", lambda: grep(r"^impl\b"))],
    3: [("loops", lambda: grep(r"^\s*(for .* in |while |loop \{)")),
        ("indices", lambda: grep(r"\w\[[a-z_][\w.]*( [-+*/] [\w.]+)*\]"))],
    4: [("written by hand", lambda: grep(r"impl.* (PartialEq|Eq|PartialOrd|Ord|Clone|Copy|From<.*|TryFrom<.*|fmt::Display) for|fn (agree|lesser|greater|at_most|higher|letter|\w+_of)\b")),
        ("widening casts", lambda: grep(r"\bas (i64|u64|i128|u32|usize)\b"))],
    5: [("facts in three functions", repeated_facts),
        ("parameters together in three functions", together)],
    6: [("arrays, vectors and places", lambda: grep(r"\bVec<|: \[[^]]+; \w+\]|\bat: usize|, usize\)(>| )|-> \[[^]]+; \w+\]"))],
    7: [("a switch on a step", lambda: grep(r"match (\*?self|code|damage|look|call|kind|\(.*call\)|dice\.roll.*|self\.roll.*) \{")),
        ("closures and functions as values", lambda: grep(r"\|[\w, ()&*]*\| |\bFn(Once|Mut)?\("))],
    8: [("answers, lemmas and invariants", answers)],
}

if __name__ == "__main__":
    wanted = int(sys.argv[1]) if len(sys.argv) > 1 else None
    for point, patterns in POINTS.items():
        for name, run in patterns:
            rows = run()
            if wanted is None:
                print(f"{point} {name}: {len(rows)}")
            elif wanted == point:
                print(f"-- {name}: {len(rows)}")
                if point == 8:
                    rows = [f"{k}: {v}" for k, v in sorted(Counter(rows).items())]
                print("\n".join(rows))
