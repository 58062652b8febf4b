#!/usr/bin/env python3
"""respell: brings the names that specs/ and the lemma files of proofs/ declare to snake case, wherever they are cited.

usage: respell.py OLD        at the root of the repository, after port.py; OLD is a folder that holds it as it was before port.py

In crates/ it turns every file of antt and Rattle and every edit, and in README.md, CHANGELOG.md and docs/ what stands between backquotes.
Types, modules, functions of src/, exports and strings keep their names: a name is turned only where antt declares it, in lower case, and Rattle's
own words never hold a dash or a capital. The names of a definition and of a law that differ in spelling alone would fall together: there the law, the one
with the dash, gets another name."""
import os
import pathlib
import re
import sys

# laws whose plain snake case is a definition's name
OTHER = {
    "all-of": "all_of_lem",
    "array-answer": "array_answer_is",
    "array-block": "array_block_is",
    "lent-answer": "lent_answer_is",
    "lent-block": "lent_block_is",
    "in-range": "in_range_lem",
    "in-block": "in_block_lem",
    "in-turn": "in_turn_lem",
    "in-row": "in_row_lem",
}
# laws that port.py itself gave a definition's name, by the files that declare and cite them
LOCAL = {
    ("crates/waits/proofs/NarrowSquare.antt", "held_by"): "held_by_lem",
    ("crates/macroblock/proofs/Places.antt", "block_of"): "block_of_lem",
    ("crates/slices/proofs/Decoded.antt", "block_of"): "block_of_lem",
    ("crates/calls/proofs/Regions.antt", "block_of"): "block_of_lem",
}
# names that port.py leaves where a file has both
LEFT = {"block-of": "block_of_lem", "blockOf": "block_of"}

IDENT = re.compile(r"[^\W\d][\w']*(?:-[\w']+)*")
NAME = r"[^\W\d][\w′']*(?:-[\w′']+)*"
DECLARED = re.compile(rf"^\s*(?:(?:pub|abbrev|unfoldable|private|opaque)\s+)*({NAME}(?: {NAME})*)\s*:(?!:)", re.M)
RULESET = re.compile(rf"\bruleset ({NAME}) =")
RENAMED = re.compile(rf"\b as ({NAME})(?=[,}}])")
PARAMETER = re.compile(r"(?<=[( ])([a-z]+[A-Z]\w*)(?=[^()\n]* : )")
# the standard's own letters
STANDARD = {"xO", "yO", "nA", "nB", "qPI", "zVR", "zHD", "zHU"}


def snake(name):
    name = name.replace("-", "_").replace("′", "'").replace("NxN", "Nxn")
    if not name[0].isupper():
        name = re.sub(r"([a-z0-9₀-₉])([A-Z])", r"\1_\2", name)
    return name if name[0].isupper() else "".join(c.lower() if c.isascii() else c for c in name)


def files(root, ending):
    found = (p for p in (root / "crates").rglob("*" + ending) if "out" not in p.parts)
    return sorted(p for p in found if p.is_file())


def declared(root):
    """The names that specs/ and lemma files declare: all in lower case, and those with a dash."""
    names = set()
    for p in files(root, ".antt"):
        if p.name != "Proof.antt":
            text = p.read_text()
            names |= {n for line in DECLARED.findall(text) for n in line.split()}
            names |= set(RULESET.findall(text)) | set(RENAMED.findall(text)) | set(PARAMETER.findall(text))
    return {n for n in names - STANDARD if "-" in n or not n[0].isupper()}


def turned(names):
    """Each name that changes, with its new one."""
    by_snake = {}
    for n in names:
        by_snake.setdefault(snake(n), set()).add(n)
    new = {}
    for s, olds in by_snake.items():
        for n in olds:
            law_beside_definition = "-" in n and len(olds) > 1
            new[n] = OTHER.get(n) or (s + "_lem" if law_beside_definition else s)
    return {n: m for n, m in new.items() if n != m}


def put(text, new):
    return IDENT.sub(lambda m: new.get(m[0], m[0]), text)


def main():
    here = pathlib.Path(".")
    now = turned(declared(here)) | LEFT
    both = turned(declared(pathlib.Path(sys.argv[1]))) | now
    for p in files(here, ".antt") + files(here, ".rt"):
        new = now | {n: m for (at, n), m in LOCAL.items() if at == str(p)}
        old = p.read_text()
        text = put(old, new) if p.suffix == ".antt" else in_source(old, new)
        if text != old:
            p.write_text(text)
    for p in files(here, ".edit"):
        old = p.read_text()
        text = put(old.replace("′", "'"), both)
        if text != old:
            p.write_text(text)
    for p in [here / "README.md", here / "CHANGELOG.md", *sorted((here / "docs").rglob("*.md"))]:
        if p.name == "PORT.md":
            continue
        old = p.read_text()
        text = re.sub(r"`[^`\n]*`", lambda m: put(m[0], both), old)
        if text != old:
            p.write_text(text)


def in_source(text, new):
    """Rattle: all but strings. A dash is a minus there, so only names without one are turned."""
    plain = {n: m for n, m in new.items() if "-" not in n}
    word = re.compile(r'"(?:[^"\\]|\\.)*"|[^\W\d][\w\']*')
    return word.sub(lambda m: plain.get(m[0], m[0]), text)


if __name__ == "__main__":
    if len(sys.argv) != 2 or not os.path.isdir(os.path.join(sys.argv[1], "crates")):
        raise SystemExit(__doc__)
    main()
