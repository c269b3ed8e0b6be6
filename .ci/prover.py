#!/usr/bin/env -S python3 -B
"""What the scripts of the gate and program/build ask the kit's prover: to check or to build one crate, in a folder of its own, over the
libraries that stand in crates/*/out. `rt ci` leaves them there; what it leaves, no command of rt takes, which would prove all once more. No
copy of a crate may stand in the checkout, since `rt ci` refuses it there: `scratch` is a folder among the temporary files.

  .ci/prover.py      right after `rt ci` has passed: its libraries are those of the files as they are
"""
import concurrent.futures
import contextlib
import functools
import hashlib
import os
import pathlib
import re
import shutil
import subprocess
import sys
import tempfile

ROOT = pathlib.Path(__file__).resolve().parent.parent
PARTS = ("src", "specs", "proofs")
# checks at a time
JOBS = int(os.environ.get("JOBS") or os.cpu_count())
# the sum of what `rt ci` has proved, and left the libraries of
PROVED = ROOT / "target/proved"


@functools.lru_cache(maxsize=None)
def kit():
    """The folder of the kit."""
    ran = subprocess.run([ROOT / "program/kit"], stdout=subprocess.PIPE, check=True)
    return ran.stdout.decode().strip()


@functools.lru_cache(maxsize=None)
def listed():
    """The crates of crates.txt, each with the libraries that it names."""
    lines = (ROOT / "crates.txt").read_text().splitlines()
    found = [re.match(r"(\w+)([^:#]*):([^#]*)", line) for line in lines]
    return {line[1]: line[3].split() for line in found if line}


@functools.lru_cache(maxsize=None)
def kinds():
    """The crates that are no library for others: their words before the colon, as `staticlib`, or `program`."""
    lines = (ROOT / "crates.txt").read_text().splitlines()
    found = {line[1]: line[2].strip() for line in (re.match(r"(\w+)([^:#]*):", line) for line in lines) if line}
    return {crate: words or "program" for crate, words in found.items()
            if "staticlib" in words.split() or (ROOT / "crates" / crate / "src/main.rt").is_file()}


def below(crates):
    """The repository's libraries below these crates, each after those that it names."""
    found = []
    for crate in crates:
        for name in listed().get(crate, []):
            if name in listed():
                found += [it for it in [*below([name]), name] if it not in found]
    return found


def library(crate):
    """Where the library of a crate stands."""
    return ROOT / "crates" / crate / "out/rlib" / f"{crate}.rlib"


def stamp():
    """A sum of all that the libraries are made from: the kit's name, crates.txt, and the files that the prover reads."""
    ran = subprocess.run([os.environ.get("RT", "rt"), "version"], stdout=subprocess.PIPE, check=True)
    files = [ROOT / "crates.txt"]
    files += (it for part in PARTS for it in ROOT.glob(f"crates/*/{part}/**/*") if it.suffix in (".rt", ".antt"))
    summed = hashlib.sha256(ran.stdout)
    for file in sorted(files):
        summed.update(repr((str(file.relative_to(ROOT)), file.read_bytes())).encode())
    return summed.hexdigest()


def note():
    """Says, after `rt ci`, what the libraries are made from that it left."""
    PROVED.parent.mkdir(exist_ok=True)
    PROVED.write_text(stamp() + "\n")


def is_left_by_ci(crates):
    """Whether the libraries are those that `rt ci` left of the files as they are: rt's other commands put a stamp beside theirs."""
    places = [library(it) for it in crates]
    whole = all((it / "format").is_file() and not (it.parent / "stamp").exists() for it in places)
    return whole and PROVED.is_file() and PROVED.read_text().strip() == stamp()


def ready(crates):
    """Sees that the libraries of these crates, and all below them, are there and of one make: those that `rt ci` left, where nothing has
    changed since, or else those of `rt lib`, which proves what is new, side by side."""
    crates = [it for it in dict.fromkeys([*below(crates), *crates]) if it not in kinds()]
    if is_left_by_ci(crates):
        return
    made = {}

    def build(crate):
        if not all(made[it].result() for it in listed()[crate] if it in made):
            return False
        ran = subprocess.run([os.environ.get("RT", "rt"), "lib"], cwd=ROOT / "crates" / crate, stdout=subprocess.PIPE, stderr=subprocess.STDOUT,
                             check=False)
        if ran.returncode:
            print(ran.stdout.decode(errors="replace"), end="", file=sys.stderr)
            print(f"{crate} is not proved", file=sys.stderr, flush=True)
        return not ran.returncode

    # a crate comes after those that it waits for, so that some thread always has work
    with concurrent.futures.ThreadPoolExecutor(JOBS) as pool:
        for crate in crates:
            made[crate] = pool.submit(build, crate)
    if not all(it.result() for it in made.values()):
        sys.exit(1)


def whole_or_not(crates):
    """The words by which a library is built as those of these crates are: `rt ci` leaves statements without proofs, and the prover takes no such
    library over one that has proofs too."""
    return ["--statements"] if is_left_by_ci([it for it in dict.fromkeys([*below(crates), *crates]) if it not in kinds()]) else []


def ask(verb, folder, name, names, *more, at=None):
    """Has the prover check or build the crate `name` in the folder, over the libraries `names` of this repository or of the kit: whether it is
    proved, and what it said. `at` has the places of libraries that stand elsewhere than the others."""
    at, home = at or {}, kit()
    under = dict.fromkeys([*below(names), *(it for it in names if it in listed())])
    place = {it: pathlib.Path(at.get(it, library(it))) for it in under}
    place |= {it: pathlib.Path(home) / "rlibs" / f"{it}.rlib" for it in ("std", *names) if it not in place}
    root = "src/main.rt" if (pathlib.Path(folder) / "src/main.rt").is_file() else "src/lib.rt"
    words = [f"{home}/bin/rattle", verb, "--crate-name", name, root]
    for it in ("std", *names):
        words += ["--extern", f"{it}={place[it]}"]
    for it in dict.fromkeys(path.parent for path in place.values()):
        words += ["-L", f"dependency={it}"]
    words += ["--antt-project", f"{home}/rattle/logic/antt-project.json", "--logic-built", f"{home}/logic_built", "--jobs", "1"]
    words += ["--links", f"{name}=", *map(str, more)]
    ran = subprocess.run(words, cwd=folder, stdin=subprocess.DEVNULL, stdout=subprocess.PIPE, stderr=subprocess.STDOUT, check=False)
    log = ran.stdout.decode(errors="replace")
    return ran.returncode == 0 and re.search(r"^logic=proved ", log, re.M) is not None, log


def copied(crate, folder):
    """Puts the files of a crate that the prover reads in a folder."""
    for part in PARTS:
        if (ROOT / "crates" / crate / part).is_dir():
            shutil.copytree(ROOT / "crates" / crate / part, pathlib.Path(folder) / part)
    return pathlib.Path(folder)


@contextlib.contextmanager
def scratch(name):
    """A folder outside the checkout, which goes at the end; and one in target/ for what the prover said, which stays."""
    logs = ROOT / "target" / name
    shutil.rmtree(logs, ignore_errors=True)
    logs.mkdir(parents=True)
    with tempfile.TemporaryDirectory(prefix=f"frundavel-{name}-") as room:
        yield pathlib.Path(room), logs


if __name__ == "__main__":
    note()
