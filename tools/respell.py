#!/usr/bin/env python3
"""Respells the names that specs/ and proofs/ declare: types in upper camel case, all else in snake case.

usage: python3 tools/respell.py     at the top of the repository

A dash stays in a lemma's name where it joins two names of functions, as in `length-spelled`. Names of goals, names of
src/, strings and local names stay as they are. Files are rewritten in place, README.md and docs/ too (where a name
stands in backticks). It prints each name that it turns, and stops before it writes where a new name would fall
together with another one.
"""

import os
import re
import sys

TOKEN = re.compile(rf"(?<![A-Za-z0-9_'-])[A-Za-z][A-Za-z0-9_']*(?:-[A-Za-z0-9_']+)+(?![A-Za-z0-9_'-])")
HEAD = re.compile(r"^( *)((?:(?:pattern|unfoldable|abbrev|pub|data|record) +)*)([A-Za-z][A-Za-z0-9_'-]*) *:(?!:)(.*)$")
# The library renamed what the first stands on; the second is beside a function of src/ that has the name.
BY_HAND = {"getD-mem": "get_or-mem", "marks-of": "marks_of_lem"}
LIBRARY = {"length", "drop", "take", "set", "append", "map", "zip", "get_or", "is_some"}


def files():
    for folder, dirs, names in os.walk("crates"):
        dirs[:] = sorted(d for d in dirs if d != "out")
        for name in sorted(names):
            if name.endswith((".rt", ".antt")):
                yield os.path.join(folder, name)


def is_type(marks, rest):
    """Whether a declaration is of a type: its result is Type 0."""
    return "data" in marks or "record" in marks or re.search(r"(→|^)\s*Type 0( where)?\s*$", rest) is not None


def camel(name):
    return "".join(part[:1].upper() + part[1:] for part in re.split("[-_]", name))


def declared(texts):
    """The dashed names that are declared, each with whether it is a type and whether it is a lemma."""
    found = {}
    functions = set(LIBRARY)
    for path, text in texts.items():
        if not path.endswith(".antt"):
            continue
        in_specs = "/specs/" in path
        for line in text.split("\n"):
            with_parameters = re.match(r"^ *(?:pub +)?(?:data|record) +([A-Za-z][A-Za-z0-9_'-]*) +[({]", line)
            if with_parameters and "-" in with_parameters.group(1):
                found[with_parameters.group(1)] = "type"
            m = HEAD.match(line)
            if not m or re.match(r"\s*goal\.", m.group(4)):
                continue
            marks, name, rest = m.group(2), m.group(3), m.group(4)
            data = is_type(marks, rest)
            function = ("abbrev" in marks or "unfoldable" in marks) and not data
            if function:
                functions.add(name)
            if "-" in name:
                kind = "type" if data else "function" if function or (in_specs and m.group(1)) else "lemma"
                if name in found and found[name] != kind:
                    kind = "type" if "type" in (kind, found[name]) else "lemma" if "lemma" in (kind, found[name]) else kind
                found[name] = kind
    return found, functions


def spelled(name, kind, functions):
    if name in BY_HAND:
        return BY_HAND[name]
    if kind == "type":
        return camel(name)
    if kind == "lemma":
        parts = name.split("-")
        for i in range(1, len(parts)):
            left, right = "-".join(parts[:i]), "-".join(parts[i:])
            if (left in functions or left.replace("-", "_") in functions) and (right in functions or right.replace("-", "_") in functions):
                return left.replace("-", "_") + "-" + right.replace("-", "_")
    if kind != "type" and name[0].isupper():
        head, tail = name.split("-", 1)
        return head + "-" + tail.replace("-", "_")
    return re.sub(r"(?<=[a-z])(?=[A-Z])", "_", name.replace("-", "_")).lower()


def turn(text, table, rust):
    def one(m):
        return table.get(m.group(0), m.group(0))

    if not rust:
        return TOKEN.sub(one, text)
    parts = re.split(r'("(?:[^"\\]|\\.)*")', text)
    return "".join(p if i % 2 else TOKEN.sub(one, p) for i, p in enumerate(parts))


def main():
    texts = {p: open(p, encoding="utf-8").read() for p in files()}
    found, functions = declared(texts)
    table = {name: spelled(name, kind, functions) for name, kind in sorted(found.items())}
    table = {a: b for a, b in table.items() if a != b}
    bad = []
    by_new = {}
    for a, b in table.items():
        by_new.setdefault(b, []).append(a)
    bad += [f"{' and '.join(olds)} would both be {new}" for new, olds in by_new.items() if len(olds) > 1]
    words = {p: set(re.findall(r"(?<![A-Za-z0-9_'.-])[A-Za-z][A-Za-z0-9_'-]*", t)) for p, t in texts.items()}
    for path, ws in words.items():
        for a, b in table.items():
            if a in ws and b in ws:
                bad.append(f"{path}: {a} would be {b}, which stands there already")
    for a, b in sorted(table.items()):
        print(f"{found[a]:9} {a} -> {b}")
    if bad:
        print("\n".join(bad), file=sys.stderr)
        return 1
    for path, text in texts.items():
        new = turn(text, table, path.endswith(".rt"))
        if new != text:
            open(path, "w", encoding="utf-8").write(new)
    pages = ["README.md"] + [os.path.join("docs", n) for n in sorted(os.listdir("docs")) if n.endswith(".md") and not n.startswith("PORT")]
    for path in pages:
        text = open(path, encoding="utf-8").read()
        new = re.sub(r"`[^`\n]*`", lambda m: turn(m.group(0), table, False), text)
        if new != text:
            open(path, "w", encoding="utf-8").write(new)
    return 0


if __name__ == "__main__":
    raise SystemExit(main())
