#!/usr/bin/env -S python3 -B
"""Turns the `want:` lines of edits to what today's prover says (docs/PORT.md).

  tools/wants.py CRATE..             after .ci/reasons CRATE..: shows each want of a must-fail edit that is not met, and what it would become
  tools/wants.py wrong CRATE..       after .ci/wrong-statements CRATE..: the same of crates/CRATE/wrong
  tools/wants.py weakened            after .ci/weakened: the same of crates/promises/weakened
  tools/wants.py --write ..          and writes it

A want that is not met is first respelled as today's Rattle spells names and terms. Where that is not met either, it becomes the core of the
thing, among those that the prover says of its function, that is most like it: the two values that differ, or the values at which a goal
fails. A thing that only says that a name is gone, or that something else was not checked, is no reason. Read each before it is kept."""
import difflib
import importlib.machinery
import importlib.util
import pathlib
import re
import sys

ROOT = pathlib.Path(__file__).resolve().parent.parent
sys.path.insert(0, str(ROOT / ".ci"))
LOADER = importlib.machinery.SourceFileLoader("reasons", str(ROOT / ".ci/reasons"))
SPEC = importlib.util.spec_from_loader("reasons", LOADER)
reasons = importlib.util.module_from_spec(SPEC)
LOADER.exec_module(reasons)

NO_REASON = re.compile(r"was not checked|were not checked|was not admitted|is not in scope|has no `|has no field|can be named from here|no proof: expected answers")
# what is said of a value, in what the prover says of a goal; the first that is there is taken
CORES = [
    re.compile(r"the two types (?:first differ|differ only) where one has .*? \(found\)(?! and)"),
    re.compile(r"the goal fails, at .*?(?=\. It read|; the part|$)"),
    re.compile(r"the goal fails at .*?(?=\. )"),
    re.compile(r"may be false: the known facts allow .*?(?=, and \d+ more|: help)"),
    re.compile(r"the two types are .*? \(found\)"),
    re.compile(r"expected type `[^`]*`,? but this has type `[^`]*`"),
    re.compile(r"`\S+` of (?:\./)?proofs/\S+ must prove: .*?(?= names you can use)"),
    re.compile(r"(?<= )[^`]{1,170}` is none"),
    re.compile(r"`search`: no proof of `[^`]*`?"),
    re.compile(r"error: `[^`]*`: .*"),
]
LONGEST = 260


def respelled(text, lemmas=False):
    """A want in today's spelling of terms, as far as that goes."""
    for old, new in (("Rattle·", "Rattle."), ("·specs.specs.", ".specs."), ("·proofs.proofs.", ".proofs."), (".the-variants.", ".TheVariants."),
                     ("lib.ListN.getD", "lib.ListN.get_or"), ("_≡_", "◌≡◌")):
        text = text.replace(old, new)
    text = re.sub(r"_([-+*/%^<≤&|]{1,2})_", r"◌\1◌", text)
    text = re.sub(r"\bc(?: \.before)+(?= \.)", "c", text)
    text = re.sub(r"(?<=[\w'})]) \.(?=[a-z0-9])", ".", text)
    text = re.sub(r"\((\w+(?:\.[\w-]+)+)\)", r"\1", text)
    text = re.sub(r"(?<=error: `)[\w-]+(?=`)|^`[\w-]+`(?=:)", lambda it: it[0].replace("-", "_").lower(), text) if lemmas else text
    return re.sub(r"(?<!\w)[a-z]+[A-Z]\w*", lambda it: re.sub(r"([a-z0-9])([A-Z])", lambda k: k[1] + "_" + k[2].lower(), it[0]), text)


def core(thing):
    """What is said of a value in a thing that the prover says, and how much it tells: the sooner in the list the more."""
    for rank, form in enumerate(CORES):
        found = list(form.finditer(thing))
        if found:
            text = min((it[0] for it in found), key=len)
            # of the values at which a goal may be false, those of the code
            values = re.match(r"may be false: the known facts allow (.*)", text)
            if values:
                pairs = [it for it in re.findall(r"`[^`]*` = `[^`]*`", values[1]) if not re.search(r"\.Lts\b|well_formed|mir\.|mathlib", it)]
                # (those that stand side by side)
                made = [f"may be false: the known facts allow {', '.join(pairs[:2])}", f"may be false: the known facts allow {pairs[0]}", *pairs] if pairs else []
                text = next((it for it in made if it in thing), text)
            return rank, text if len(text) <= LONGEST else text[:LONGEST].rsplit(" ", 1)[0]
    return len(CORES), ""


def likeness(one, other):
    words = [re.findall(r"[\w◌]+|[^\w\s]", it) for it in (one, other)]
    return difflib.SequenceMatcher(None, *words, autojunk=False).ratio()


def whole_core(thing):
    """The core of a thing that is said of no function: with the name of what is refused."""
    name = re.search(r"error: `[^`]*`:", thing)
    rank, text = core(thing)
    if name and text in thing[name.start():]:
        text = thing[name.start():thing.index(text, name.start()) + len(text)]
    return rank, text if len(text) <= LONGEST else text[:LONGEST].rsplit(" ", 1)[0]


def turned(edit, of, every):
    """The lines of an edit with its wants turned, and what was turned; from the things that are said of each function, and all of them."""
    whole = " ".join(every)
    lines, changes, taken = edit.read_text().splitlines(), [], {}
    for number, line in enumerate(lines):
        want = re.match(r"want(?: (\S+))?: (.*\S)\s*$", line)
        if not want:
            continue
        things, form = (of.get(want[1], []), core) if want[1] else (every, whole_core)
        met = lambda text: any(text in it for it in things) if want[1] else text in whole
        text = reasons.unbroken(want[2])
        if met(text):
            continue
        new = respelled(text, not want[1])
        if met(new):
            taken.setdefault(want[1], set()).update(form(it)[1] for it in things if new in it)
        else:
            name = re.search(r"(?:error: |^)`([\w-]+)`:", new)
            named = [it for it in things if name and f"error: `{name[1]}`" in it]
            cores = {form(it): it for it in named or things if not NO_REASON.search(it)}
            best = sorted((it for it in cores if it[1]), key=lambda it: (it[1] in taken.get(want[1], ()), -likeness(new, cores[it]) + it[0] / 20))
            if not best:
                changes.append((line, None))
                continue
            new = best[0][1]
            taken.setdefault(want[1], set()).add(new)
        lines[number] = f"want{' ' + want[1] if want[1] else ''}: {new}"
        changes.append((line, lines[number]))
    return lines, changes


def told(words):
    """Each edit of a kind, with what is said of each function, and all things that are said."""
    kind, crates = (words[0], words[1:]) if words and words[0] in ("wrong", "weakened") else ("must-fail", words)
    for edit in sorted(ROOT.glob(f"crates/*/{kind}/*.edit")):
        crate = edit.parts[-3]
        if crates and crate not in crates:
            continue
        if kind == "must-fail":
            log = ROOT / "target/reasons" / crate / f"{edit.stem}.log"
            text = log.read_text() if log.is_file() else ""
            of = {name: [reasons.unbroken(it) for it in its] for name, its in reasons.errors(text).items()}
            yield edit, of, [reasons.unbroken(it) for it in re.split(r"\n(?=\S)", text)]
        elif kind == "weakened":
            log = ROOT / "target/weakened" / edit.stem / "promises.log"
            text = log.read_text() if log.is_file() else ""
            yield edit, {}, [reasons.unbroken(it) for it in re.split(r"\n(?=\S)", text)]
        elif crate in ("promises", "examples"):
            log = ROOT / "target/wrong-statements" / f"{crate}.log"
            number = sorted((ROOT / "crates" / crate / "wrong").glob("*.edit")).index(edit)
            text = re.sub(rf"Rattle\.wrong\.specs\.E{number}\.", f"Rattle.{crate}.specs.", log.read_text() if log.is_file() else "")
            yield edit, {}, [reasons.unbroken(it) for it in re.split(r"\n(?=\S)", text) if re.match(rf"\./specs/E{number}/", it)]


def main():
    writes, words = "--write" in sys.argv[1:], [it for it in sys.argv[1:] if it != "--write"]
    for edit, of, every in told(words):
        if not any(every):
            continue
        lines, changes = turned(edit, of, every)
        for old, new in changes:
            print(f"{edit.parts[-3]}/{edit.stem}\n  - {old}\n  + {new or 'NOTHING IS SAID OF IT'}")
        if writes and changes:
            edit.write_text("\n".join(lines) + "\n")


main()
