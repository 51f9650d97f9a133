#!/usr/bin/env python3
"""Finds functions that say the same but for names: python3 tools/twins.py COMMIT, at the root.

Takes the clauses, comments, names and numbers out of each function's body, reads + - < > as one sign, and prints which
bodies of 14 words or more are then equal, and how many functions repeat another.
"""
import collections
import re
import subprocess
import sys

KEPT = set(
    "fn pub let mut if else match for in while return self Some None Ok Err true false impl struct enum Self as use const ref"
    " loop break continue move".split()
)


def git(*words):
    return subprocess.run(["git", *words], capture_output=True, text=True, check=True).stdout


def bodies(text):
    text = re.sub(r"//.*", "", text)
    clause = re.compile(r"^\s*(requires|ensures)\b.*$", re.M)
    text = clause.sub(lambda m: ";" if m.group(0).rstrip().endswith(";") else "", text)
    for m in re.finditer(r"\bfn (\w+)", text):
        start, end = text.find("{", m.end()), text.find(";", m.end())
        if start < 0 or 0 <= end < start:
            continue
        depth, at = 0, start
        while at < len(text):
            depth += {"{": 1, "}": -1}.get(text[at], 0)
            if depth == 0:
                break
            at += 1
        yield m.group(1), re.findall(r"\w+|[^\w\s]", text[start : at + 1])


def plain(words):
    names = {}
    for w in words:
        if w.isdigit():
            yield "0"
        elif re.match(r"[A-Za-z_]", w) and w not in KEPT:
            yield names.setdefault(w, f"v{len(names)}")
        else:
            yield "~" if w in "+-<>" else w


def main(commit):
    alike = collections.defaultdict(list)
    for path in git("ls-tree", "-r", "--name-only", commit, "crates").split():
        if path.endswith(".rt"):
            for name, words in bodies(git("show", f"{commit}:{path}")):
                if len(words) >= 14:
                    alike[" ".join(plain(words))].append(f"{path.replace('crates/', '').replace('/src', '')} {name}")
    groups = [g for g in alike.values() if len(g) > 1]
    for g in groups:
        print("; ".join(g))
    print("functions that repeat another:", sum(len(g) - 1 for g in groups))


if __name__ == "__main__":
    main(sys.argv[1])
