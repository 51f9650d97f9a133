"""Respells the definitions and lemmas of the repository: words in snake case, where they were in camel case.

usage: tools/respell.py [FOLDER]     FOLDER has crates/. Run once, after the library's own script; a second run changes nothing.
"""

import collections
import os
import re
import sys

# names whose plain respelling is that of a field or of a lemma, and the library's newer word
OTHERS = {"mayMeet": "orders_may_meet", "usedAll": "used_from_first", "getD": "get_or"}
WORD = re.compile(r"(?<![A-Za-z0-9_'])[a-z][a-z0-9_]*[a-z0-9][A-Z][A-Za-z0-9_']*")
ROW = re.compile(r"--   (\S+(?:, \S+)*)( {2,})(\S.*)")
REST = re.compile(r"--( {6,})(\S.*)")


def respelled(name):
    return OTHERS.get(name) or re.sub(r"[A-Z]", lambda m: "_" + m[0].lower(), name)


def turn(text):
    return WORD.sub(lambda m: respelled(m[0]), text)


def head(lines):
    """The comment at the head of a file: a row for each name, the explanations in one column."""
    columns = collections.Counter(m.start(3) for l in lines if (m := ROW.fullmatch(l)))
    if not columns:
        return [turn(l) for l in lines]
    column = columns.most_common(1)[0][0]
    rows = [m for l in lines if (m := ROW.fullmatch(l)) and m.start(3) == column]
    wide = max([column] + [len("--   " + turn(m[1])) + 2 for m in rows])
    out = []
    for l in lines:
        m, r = ROW.fullmatch(l), REST.fullmatch(l)
        if m and m.start(3) == column:
            out.append(("--   " + turn(m[1])).ljust(wide) + turn(m[3]))
        elif m:
            out.append("--   " + turn(m[1]) + m[2] + turn(m[3]))
        elif r and r.start(2) == column:
            out.append("--".ljust(wide) + turn(r[2]))
        else:
            out.append(turn(l))
    return out


def main(top):
    for folder, dirs, files in os.walk(os.path.join(top, "crates")):
        dirs[:] = sorted(d for d in dirs if d != "out")
        for f in sorted(files):
            if not f.endswith((".antt", ".rt")):
                continue
            path = os.path.join(folder, f)
            with open(path, encoding="utf-8") as it:
                old = it.read()
            if not WORD.search(old):
                continue
            lines = old.split("\n")
            n = next((i for i, l in enumerate(lines) if not l.startswith("--")), len(lines))
            new = "\n".join(head(lines[:n]) + [turn(l) for l in lines[n:]])
            with open(path, "w", encoding="utf-8") as it:
                it.write(new)


if __name__ == "__main__":
    main(sys.argv[1] if len(sys.argv) > 1 else ".")
