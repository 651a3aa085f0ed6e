#!/usr/bin/env python3
"""Respells the names of this repository's own definitions and lemmas: words in snake case, types and facts in camel case.

usage: python3 tools/respell.py      at the top of a repository, once, after the toolchain's own script for older repositories

A name that specs/ or proofs/ declare with a dash gets underscores (`class-answer` is `class_answer`), and one with a
capital drops them (`Cut-into` is `CutInto`). Kept are names that join two words of the library or of the repository, as
`length-bits`. Functions of src/, strings, inputs and outputs are left alone. It stops before it writes where two of these
names would fall together, and says where a new name stands in a file already.
"""
import pathlib
import re
import sys

# lemmas whose dash joins the names of two functions, which is the spelling asked for
KEPT = {"get_or-take", "length-bits", "length-puts", "length-rows", "length-zeroed", "value-append", "value-take", "zeros-++", "zeros-cons", "zeros-run"}
# names of premises and of local facts, which no declaration shows
LOCAL = {"b-is", "ls-is", "m-is", "ps-is", "r-low", "room-is", "sound-t", "w-is", "ws-is", "y-is", "z-is"}
# a module of the repository has the plain form
OTHER = {"Run-laid": "RunsLaid"}
DECLARES = re.compile(r"^(\s*)((?:(?:pub|abbrev|unfoldable|record|data)\s+)*)([A-Za-z][^\s:(){}\[\].;,]*)(\s+[({].*)?\s+:\s(.*)$")


def files(*ends):
    for path in sorted(pathlib.Path("crates").rglob("*")):
        if path.suffix in ends and path.is_file() and "out" not in path.parts:
            yield path


def declared():
    names = set()
    for path in files(".antt"):
        for line in path.read_text().splitlines():
            m = DECLARES.match(line)
            if m and not m[5].startswith("goal."):
                names.add(m[3])
    return names


def respelt(name):
    if name in OTHER:
        return OTHER[name]
    if name[0].isupper():
        return "".join(part[0].upper() + part[1:] for part in name.split("-"))
    return name.replace("-", "_")


def token(name):
    return re.compile(r"(?<![\w'\-.])" + re.escape(name) + r"(?![\w'\-])")


def main():
    pairs = {n: respelt(n) for n in (declared() | LOCAL) if "-" in n and n not in KEPT}
    text = {path: path.read_text() for path in files(".antt", ".rt", ".edit")}
    alike = [n for n in sorted(pairs) if sum(m == pairs[n] for m in pairs.values()) > 1]
    taken = [(n, str(p)) for n in sorted(pairs) for p, t in text.items() if p.suffix == ".antt" and token(pairs[n]).search(re.sub(r"--.*", "", t))]
    for n, p in taken:
        print(f"look: {pairs[n]} stands in {p} already ({n})")
    if alike:
        print("fall together: " + ", ".join(alike))
        return 1
    spelt = re.compile(r"(?<![\w'\-])(" + "|".join(sorted(map(re.escape, pairs), key=len, reverse=True)) + r")(?![\w'\-])")
    quoted = re.compile(r'"(?:[^"\\]|\\.)*"')
    for path, old in text.items():
        kept = quoted.findall(old) if path.suffix == ".rt" else []
        new = quoted.sub("\0", old) if kept else old
        new = spelt.sub(lambda m: pairs[m[1]], new)
        for k in kept:
            new = new.replace("\0", k, 1)
        if new != old:
            path.write_text(new)
    # in the documents also the names that the toolchain's script has respelt
    names = declared()
    for path in [pathlib.Path("README.md"), *sorted(p for p in pathlib.Path("docs").glob("*.md") if p.name != "PORT.md")]:
        if path.is_file():
            old = path.read_text()
            new = re.sub(r"`([\w-]+)`", lambda m: f"`{pairs.get(m[1]) or (respelt(m[1]) if respelt(m[1]) in names else m[1])}`", old)
            if new != old:
                path.write_text(new)
    print(f"{len(pairs)} names")
    return 0


sys.exit(main())
