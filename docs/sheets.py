#!/usr/bin/env python3
"""docs/sheets.py SHEET ALLOT: runs what docs/SHEETS.md shows. Each word says how a program is run, `target/bin/sheet` or `.ci/x86-64 target/bin/sheet`.

A block behind a line that ends in a file's name and a colon is that file. A block whose lines begin with `$ ` is typed at a shell in a folder with
these files and with the examples; what follows each such line, up to the next or to the end of the block, is all that it prints.
The last line is 'N passed, M failed'; the exit status is 0 only if nothing failed and something passed."""
import os
import pathlib
import re
import shlex
import subprocess
import sys
import tempfile

ROOT = pathlib.Path(__file__).resolve().parents[1]
PAGE = (ROOT / "docs/SHEETS.md").read_text()
BLOCKS = re.findall(r"(?:^(\S[^\n]*)\n\n?)?^```\n(.*?)^```$", PAGE, re.M | re.S)


def command(folder, name, words):
    """The program under its name, with words that hold in every folder."""
    words = [str(pathlib.Path(word).resolve()) if os.path.exists(word) else word for word in shlex.split(words)]
    file = folder / name
    file.write_text(f'#!/bin/sh\nexec {shlex.join(words)} "$@"\n')
    file.chmod(0o755)


def typed(block):
    """Each line behind `$ `, and what is to be printed."""
    return [tuple(step.split("\n", 1)) for step in re.split(r"^\$ ", block, flags=re.M)[1:]]


def apart(text):
    """What `sheet` tells, and all else: of two programs in one pipe nobody orders what one writes and what the other does."""
    lines = text.splitlines(keepends=True)
    told = [line for line in lines if line.startswith("sheet: ")]
    return told, [line for line in lines if line not in told]


def main(sheet, allot):
    passed = failed = 0
    with tempfile.TemporaryDirectory() as scratch:
        programs, folder = pathlib.Path(scratch, "bin"), pathlib.Path(scratch, "desk")
        programs.mkdir(), folder.mkdir()
        command(programs, "sheet", sheet), command(programs, "allot", allot)
        (folder / "examples").symlink_to(ROOT / "examples")
        path = f"{programs}:{os.environ['PATH']}"
        for before, block in BLOCKS:
            if named := re.search(r"`([\w.-]+)`:$", before):
                (folder / named.group(1)).write_text(block)
            for line, wanted in typed(block):
                run = subprocess.run(["sh", "-c", line], cwd=folder, env={**os.environ, "PATH": path}, stdout=subprocess.PIPE, stderr=subprocess.STDOUT)
                got = run.stdout.decode()
                right = apart(got) == apart(wanted) if "|" in line else got == wanted
                passed, failed = passed + right, failed + (not right)
                if not right:
                    print(f"FAILED: $ {line}\nwanted {wanted!r}\ngot    {got!r}")
    print(f"{passed} passed, {failed} failed")
    return failed > 0 or passed == 0


if __name__ == "__main__":
    sys.exit(main(*sys.argv[1:]))
