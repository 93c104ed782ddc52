#!/usr/bin/env python3
"""Respells this repository's own definitions and lemmas: words in snake case, facts and types in camel case.

    tools/respell.py

Run once at the top, after the toolchain's own port script. The names stand in tools/respell.tsv, old and new. Only whole names of
.antt and .rt files are changed, and none in a comment or a string.
"""
import pathlib
import re

ROOT = pathlib.Path(__file__).resolve().parent.parent
NAMES = dict(line.split("\t") for line in (ROOT / "tools" / "respell.tsv").read_text().splitlines())
WORD = re.compile(r"(?<![\w'\-])[A-Za-z_][\w'\-]*")
SKIPPED = {".rt": re.compile(r"//[^\n]*|b?\"(?:\\.|[^\"\\])*\""), ".antt": re.compile(r"--[^\n]*")}


def respelled(text, suffix):
    out, at = [], 0
    for skipped in SKIPPED[suffix].finditer(text):
        out.append(WORD.sub(lambda m: NAMES.get(m[0], m[0]), text[at:skipped.start()]))
        out.append(skipped[0])
        at = skipped.end()
    out.append(WORD.sub(lambda m: NAMES.get(m[0], m[0]), text[at:]))
    return "".join(out)


for path in sorted((ROOT / "crates").rglob("*")):
    if path.suffix in SKIPPED and "out" not in path.parts and path.is_file():
        text = path.read_text()
        new = respelled(text, path.suffix)
        if new != text:
            path.write_text(new)
