#!/usr/bin/env python3
"""Brings the repository's own definitions, lemmas and record fields to snake case.

usage: python3 tools/respell.py [--list]    at the top, once, after the toolchain's own script

A name is taken where a file of specs/ or proofs/ declares it (Answers and Invariants aside: the toolchain names those).
It is turned in specs/, proofs/, must-fail/ and in the ghost text of src/; comments keep hyphenated words, and strings, Rust's
own names and what follows a dot stay, unless it is a field that is declared here. Two names that would fall together stop it:
TAKEN says what stands for such a one.
"""
import collections
import glob
import re
import sys

ID = r"[^\s(){}\[\];,.:=|«»∷]+"
# a lemma whose function has its name already
TAKEN = {
    "byte-in": "byte_in_lem",
    "bytes-at": "bytes_at_lem",
    "is-byte": "is_byte_lem",
    "lost-at": "lost_at_lem",
    "row-in": "row_in_lem",
    "set-at": "set_at_lem",
    "tupleFault": "tuple_fault_of",
    # a tactic has this name
    "first_of": "first_crossing",
}


def snake(name):
    out = re.sub(r"(?<=[a-z0-9])([A-Z])", lambda m: "_" + m.group(1).lower(), name)
    return re.sub(r"(?<=[A-Za-z0-9])-(?=[A-Za-z0-9])", "_", out)


def declared():
    tops, fields = collections.defaultdict(set), collections.defaultdict(set)
    files = glob.glob("crates/*/specs/**/*.antt", recursive=True) + glob.glob("crates/*/proofs/**/*.antt", recursive=True)
    for path in sorted(files):
        if path.endswith(("/Answers.antt", "/Invariants.antt", "/Proof.antt", "/Lib.antt")):
            continue
        inside = False
        for line in open(path, encoding="utf-8"):
            if re.match(r"\S", line):
                inside = bool(re.match(r"(pub )?(record|data) ", line))
            m = re.match(r"(\s*)(?:(?:abbrev|unfoldable|pub|record|data) )*(" + ID + r")(?: [({].*?)? : ", line)
            if not m or line.lstrip().startswith("--"):
                continue
            (fields if inside and m.group(1) else tops)[m.group(2)].add(path)
    return tops, fields


def plan():
    tops, fields = declared()
    names = set(tops) | set(fields)
    to = {}
    for n in sorted(names):
        # two names that are joined keep the dash
        if not re.match(r"[a-z]", n) or n.startswith(("length-", "leb-")):
            continue
        s = TAKEN.get(n, snake(n))
        if s != n:
            to[n] = s
    made = collections.defaultdict(set)
    for n in names:
        made[to.get(n, n)].add(n)
    clash = {s: ns for s, ns in made.items() if len(ns) > 1}
    return to, set(fields), clash, tops


def turner(to, fields):
    word = re.compile(r"(\.?)(?<![\w'\-·])(" + "|".join(sorted(map(re.escape, to), key=len, reverse=True)) + r")(?![\w'\-·])")

    def one(m):
        if m.group(1) and m.group(2) not in fields:
            return m.group(0)
        return m.group(1) + to[m.group(2)]

    return lambda text: word.sub(one, text)


def lines(text, mark, turn):
    out = []
    for line in text.split("\n"):
        at = line.find(mark)
        while at >= 0 and mark == "//" and line[:at].count('"') % 2:
            at = line.find(mark, at + 1)
        code, rest = (line, "") if at < 0 else (line[:at], line[at:])
        if mark == "//":
            code = "".join(p if i % 2 else turn(p) for i, p in enumerate(re.split(r'("(?:[^"\\]|\\.)*")', code)))
        else:
            code = turn(code)
        out.append(code + rest)
    return "\n".join(out)


def main():
    to, fields, clash, tops = plan()
    if "--list" in sys.argv:
        for n in sorted(to):
            print(n, to[n], *sorted(tops.get(n, []))[:1])
    if clash:
        for s, ns in sorted(clash.items()):
            print("falls together:", s, *(f"{n} ({', '.join(sorted(tops.get(n, ['a field'])))})" for n in sorted(ns)), file=sys.stderr)
        raise SystemExit(1)
    if "--list" in sys.argv:
        return
    turn = turner(to, fields)
    count = 0
    for path in sorted(glob.glob("crates/*/specs/**/*.antt", recursive=True) + glob.glob("crates/*/proofs/**/*.antt", recursive=True) + glob.glob("crates/*/src/**/*.rt", recursive=True) + glob.glob("crates/*/must-fail/*.edit")):
        old = open(path, encoding="utf-8").read()
        new = lines(old, "//", turn) if path.endswith((".rt", ".edit")) else lines(old, "-- ", turn)
        if new != old:
            count += 1
            open(path, "w", encoding="utf-8").write(new)
    print(f"{len(to)} names, {count} files")


main()
