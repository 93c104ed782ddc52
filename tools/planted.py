#!/usr/bin/env python3
"""Plants bugs one at a time in a copy of the repository, and sees whether the check of the crate catches each.

    tools/planted.py [CRATE ...]

The bugs of a crate stand in tools/planted/CRATE.edits, separated by empty lines, each in three lines as a must-fail edit has
them: `file: src/..`, `old: TEXT` (standing exactly once in that file), `new: TEXT`. For each a line is printed: caught, with the
first function that is no longer proved; or NOT CAUGHT. The exit status is 1 if one was not caught.
"""
import pathlib
import re
import shutil
import subprocess
import sys
import tempfile

ROOT = pathlib.Path(__file__).resolve().parent.parent


def edits_of(path):
    for block in path.read_text().strip().split("\n\n"):
        fields = dict(line.split(": ", 1) for line in block.splitlines())
        yield fields["file"], fields["old"], fields["new"]


def caught_by(output):
    """What the check said first of the function that is no longer proved."""
    for line in output.splitlines():
        open_one = re.match(r"fn (\S+): (no proof|not proved)", line)
        if open_one:
            return f"{open_one[1]}: {open_one[2]}"
    for line in output.splitlines():
        if "error" in line:
            return re.sub(r"^\S*?(crates/)", r"\1", line)[:160]
    return "no word of the check"


def plant(copy, crate, file, old, new):
    path = copy / "crates" / crate / file
    text = path.read_text()
    if text.count(old) != 1:
        return None, f"its text stands {text.count(old)} times"
    path.write_text(text.replace(old, new))
    try:
        run = subprocess.run(["rt", "check"], cwd=copy / "crates" / crate, capture_output=True, text=True)
    finally:
        path.write_text(text)
    output = run.stdout + run.stderr
    if run.returncode == 0 and re.search(r"^logic=proved", output.split("\ncrate " + crate)[-1], re.M):
        return False, ""
    return True, caught_by(output)


def main(names):
    lists = sorted((ROOT / "tools" / "planted").glob("*.edits"))
    missed = 0
    with tempfile.TemporaryDirectory() as place:
        copy = pathlib.Path(place) / "copy"
        shutil.copytree(ROOT, copy, symlinks=True, ignore=shutil.ignore_patterns(".git", "out", "target"))
        for path in lists:
            crate = path.stem
            if names and crate not in names:
                continue
            for number, (file, old, new) in enumerate(edits_of(path), 1):
                caught, by = plant(copy, crate, file, old, new)
                verdict = {True: "caught", False: "NOT CAUGHT", None: "NOT PLANTED"}[caught]
                missed += caught is not True
                print(f"{crate} {number} | {verdict} | {file}: {old} -> {new} | {by}", flush=True)
    return 1 if missed else 0


sys.exit(main(sys.argv[1:]))
