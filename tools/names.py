#!/usr/bin/env python3
"""Brings the names of definitions and lemmas to one spelling: words in snake case, types and facts in camel case, a dash between two names.

usage: python3 tools/names.py    at the top of the repository, once, after its sources have today's spelling

A name is a word of an .antt file that begins with a small letter and has a capital in one of its parts, as `wholeSpace` or `prefix-holdsI`; each such
part is respelled (`whole_space`, `prefix-holds_i`). A part that begins with a capital is a fact's and keeps it. Where a respelled name falls together
with another word of the same files, that other word moves first (FIRST). Files: .antt, .rt and .edit below crates/, README.md and docs/ but docs/PORT*.
"""

import os
import re

TOKEN = re.compile(r"[A-Za-zℕℤ_][\w'₀-₉ℕℤ-]*")
# words that would fall together with a respelled one: where, which, and what they are called now
FIRST = [
    ("crates/csv/proofs", "header_of", "header_of_lem"),
    ("crates/tables/proofs", "in_all", "all_in"),
    ("crates/tables", "in_pair", "pair_in"),
    ("crates/fields/proofs/field/number_in", "is_digit", "is_digit_lem"),
    ("crates/tables/proofs", "look_at", "look_at_lem"),
    ("crates/checker/proofs", "no_table", "no_table_lem"),
    ("crates/checker/proofs", "count_at", "count_at_lem"),
    ("crates/text/proofs", "has_room", "has_room_lem"),
    ("crates/questions/proofs/OrderedLists", "rest_in", "rest_in_lem"),
    ("crates/tables/proofs", "spelled_out", "spelled_out_lem"),
    ("crates/tables/proofs", "value_in", "value_in_lem"),
]
OTHER = {"getD": "get_or"}


def part(p):
    if p in OTHER:
        return OTHER[p]
    if not re.match(r"[a-z]", p) or not re.search(r"[A-Z]", p) or re.search(r"_[A-Z]", p):
        return p
    return re.sub(r"[A-Z]", lambda m: "_" + m.group(0).lower(), p)


def spelled(name):
    return "-".join(part(p) for p in name.split("-"))


def files(root, endings):
    for folder, dirs, names in os.walk(root):
        dirs[:] = sorted(d for d in dirs if d != "out")
        for n in sorted(names):
            if n.endswith(endings):
                yield os.path.join(folder, n)


def read(path):
    with open(path, encoding="utf-8") as f:
        return f.read()


def write(path, old, new):
    if old != new:
        with open(path, "w", encoding="utf-8") as f:
            f.write(new)


def main():
    for where, old, new in FIRST:
        for p in files("crates", (".antt",)):
            if p.startswith(where):
                t = read(p)
                # not a folder of proofs, nor a module's last name
                write(p, t, re.sub(r"(?<![\w'-])(?<!proofs\.)" + re.escape(old) + r"(?![\w'-])", new, t))
    names = {}
    for p in files("crates", (".antt",)):
        for line in read(p).split("\n"):
            for t in TOKEN.findall(line.split("--")[0]):
                s = spelled(t)
                if s != t:
                    names[t] = s
    twice = {}
    for t, s in sorted(names.items()):
        twice.setdefault(s, []).append(t)
    for s, ts in twice.items():
        if len(ts) > 1:
            raise SystemExit(f"fall together: {ts}")
    todo = list(files("crates", (".antt", ".rt", ".edit"))) + ["README.md"]
    todo += [p for p in files("docs", (".md",)) if not os.path.basename(p).startswith("PORT")]
    # words that the porting script respelled in code, and not in comments, edits and pages
    words = set()
    for p in files("crates", (".antt",)):
        for line in read(p).split("\n"):
            words |= {names.get(t, t) for t in TOKEN.findall(line.split("--")[0])}

    def turned(m):
        t = m.group(0)
        s = names.get(t, t)
        if s == t and spelled(t) in words:
            s = spelled(t)
        return s

    for p in todo:
        t = read(p)
        write(p, t, TOKEN.sub(turned, t))
    print(f"{len(names)} names")


if __name__ == "__main__":
    main()
