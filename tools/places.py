#!/usr/bin/env -S python3 -B
"""The places of an older form in src/, and what stands of walks by hand in proofs/: docs/DESIGN-PASS.md counts them.

  tools/places.py [COMMIT]            the counts, of the files as they are or as a commit has them
  tools/places.py --list [COMMIT]     each place, with its file and line

Each count is of what a pattern finds, which is below: a place that the pattern finds and that is no such place is in the page's table."""
import collections
import pathlib
import re
import subprocess
import sys

ROOT = pathlib.Path(__file__).resolve().parent.parent
# a variant of these names says that there is no value, and why
NONE = "Refused|Bad|Failed|Ended|Malformed|Comma|Other|Short|NoSeat|End|TooMany|Missing"
# a function of these names compares, orders or converts
OWN = "is|same|begins|stands_in|has_comma|lesser|greater|above|apart|left|less|bit|feed|byte_of|standing_of|kind_of|first_kind|first_at|step_at|first_row|first_place|or_else"
SIGNATURE = re.compile(r"^ *(?:pub )?(?:extern \"C\" )?fn (\w+)(?:<[^>]*>)?\(([^)]*)\)", re.M)


def files(commit):
    """The Rust-like sources, as (path, text)."""
    if not commit:
        return [(str(p.relative_to(ROOT)), p.read_text()) for p in sorted(ROOT.glob("crates/*/src/**/*.rt"))]
    names = subprocess.run(["git", "ls-tree", "-r", "--name-only", commit, "crates"], cwd=ROOT, capture_output=True, text=True, check=True).stdout.split()
    show = lambda n: subprocess.run(["git", "show", f"{commit}:{n}"], cwd=ROOT, capture_output=True, text=True, check=True).stdout
    return [(n, show(n)) for n in names if re.match(r"crates/\w+/src/.*\.rt$", n)]


def proofs(commit):
    """The walks by hand, as (path, lines)."""
    if not commit:
        return [(str(p.relative_to(ROOT)), p.read_text().count("\n")) for p in sorted(ROOT.glob("crates/*/proofs/**/*.antt")) if p.name == "Proof.antt" or p.parent.name == "Proof"]
    names = subprocess.run(["git", "ls-tree", "-r", "--name-only", commit, "crates"], cwd=ROOT, capture_output=True, text=True, check=True).stdout.split()
    walks = [n for n in names if re.match(r"crates/\w+/proofs/.*/(Proof|Proof/\w+)\.antt$", n)]
    return [(n, subprocess.run(["git", "show", f"{commit}:{n}"], cwd=ROOT, capture_output=True, text=True, check=True).stdout.count("\n")) for n in walks]


def lines(sources, pattern):
    """What a pattern finds in the lines that are no comment."""
    return [(f"{path}:{i}", line.strip()) for path, text in sources for i, line in enumerate(text.split("\n"), 1) if not line.strip().startswith("//") and re.search(pattern, line)]


def enums(sources):
    """Enums with a variant that holds a value beside one that says there is none."""
    found = []
    for path, text in sources:
        for m in re.finditer(r"^(?:pub )?enum (\w+)(?:<[^>]*>)? \{\n(.*?)^\}", text, re.M | re.S):
            variants = re.findall(r"^    (\w+)(\(|,| \{| =)", m[2], re.M)
            holds = [v for v, after in variants if after in ("(", " {")]
            if holds and any(re.fullmatch(NONE, v) for v, _ in variants):
                found.append((f"{path}:{text[:m.start()].count(chr(10)) + 1}", f"enum {m[1]} {{ {', '.join(v for v, _ in variants)} }}"))
    return found


def flagged(sources):
    """Structs of a flag and one value."""
    found = []
    for path, text in sources:
        for m in re.finditer(r"^(?:pub )?struct (\w+) \{\n(.*?)^\}", text, re.M | re.S):
            kinds = re.findall(r"^    (?:pub )?\w+: (.*),$", m[2], re.M)
            if len(kinds) == 2 and "bool" in kinds:
                found.append((f"{path}:{text[:m.start()].count(chr(10)) + 1}", f"struct {m[1]}"))
    return found


def signatures(sources, test):
    """Functions whose parameters meet a test."""
    found = []
    for path, text in sources:
        for m in SIGNATURE.finditer(text):
            parameters = [p.strip() for p in m[2].replace("\n", " ").split(",") if p.strip()]
            if test(m[1], parameters):
                found.append((f"{path}:{text[:m.start()].count(chr(10)) + 1}", f"fn {m[1]}({', '.join(parameters)})"))
    return found


def twins(sources):
    """Functions of one name with bodies that differ in no more than names, types and constants."""
    bodies = collections.defaultdict(list)
    for path, text in sources:
        for m in re.finditer(r"^( *)(?:pub )?fn (\w+)(?:<[^>]*>)?\(.*?^\1\{\n(.*?)^\1\}", text, re.M | re.S):
            shape = re.sub(r"\b[A-Za-z_]\w*\b|b?'[^']*'|b?\"[^\"]*\"|\b[\d_]+\b", "x", re.sub(r"\s+", " ", m[3]))
            if m[3].count("\n") >= 4:
                bodies[shape].append((f"{path}:{text[:m.start()].count(chr(10)) + 1}", f"fn {m[2]}"))
    return [place for same in bodies.values() if len(same) > 1 for place in same]


def facts(sources):
    """Clauses that stand in the contracts of three functions of a crate or more: each is counted once."""
    seen = collections.defaultdict(lambda: collections.defaultdict(list))
    for path, text in sources:
        for i, line in enumerate(text.split("\n"), 1):
            m = re.match(r" *requires(?: \w+)? \{ (.*) \}$", line)
            if m:
                seen[path.split("/")[1]][m[1]].append(f"{path}:{i}")
    return [(places[0], f"{len(places)} times: {fact}") for crate in seen.values() for fact, places in crate.items() if len(places) >= 3]


def count(commit, listed):
    sources = files(commit)
    walks = proofs(commit)
    points = [
        ("1. enums of the shape of Option or Result", enums(sources)),
        ("1. a flag with a value beside it", flagged(sources)),
        ("1. numbers for kinds and refusals: constants", lines(sources, r"^(pub )?const [A-Z_0-9]+: (u64|u32|u8) = \d\d?;")),
        ("1. numbers for kinds and refusals: a refusal's number as a value", lines(sources, r"\brefusal::[A-Z_]+\b")),
        ("2. functions with a body of one shape", twins(sources)),
        ("3. loops that count an index or step by hand", lines(sources, r"^\s*(while\b|loop \{)")),
        ("4. equality, order, conversion by hand: functions", lines(sources, rf"\bfn ({OWN})\(")),
        ("4. conversions by `as`", lines(sources, r" as (u8|u16|u32|u64|usize|i32|i64)\b")),
        ("5. a clause in three contracts or more", facts(sources)),
        ("5. functions of six parameters or more", signatures(sources, lambda n, p: len(p) >= 6)),
        ("6. slices with a count beside them", signatures(sources, lambda n, p: "count: usize" in p)),
        ("6. a buffer with a place beside it", signatures(sources, lambda n, p: "out: &mut [u8]" in p and "at: usize" in p)),
        ("7. a switch on which step to run", signatures(sources, lambda n, p: any(re.match(r"(lined|long|listed|in_rows|behind): bool", q) for q in p))),
        ("8. files of walks by hand", [(path, f"{n} lines") for path, n in walks]),
    ]
    for name, places in points:
        print(f"{len(places):5}  {name}")
        if listed:
            for place, what in places:
                print(f"         {place}  {what}")
    print(f"{sum(n for _, n in walks):5}  8. lines of walks by hand")


if __name__ == "__main__":
    words = [w for w in sys.argv[1:] if w != "--list"]
    count(words[0] if words else None, "--list" in sys.argv)
