"""What .ci/wrong-definitions and .ci/wrong-statements share: edits of definitions and theorems, each with its own copy of the files that change
and of all that rest on them, so that several can stand in one scratch crate: a check takes longer to begin than to go through them."""
import pathlib
import re

ROOT = pathlib.Path(__file__).resolve().parent.parent


class Bad(Exception):
    """Why an edit failed."""


def specs_of(crate):
    """The texts of a crate's files by name, Lib apart."""
    return {path.stem: path.read_text() for path in sorted((ROOT / "crates" / crate / "specs").glob("*.antt")) if path.stem != "Lib"}


def parts(edit, texts, form):
    """The files that an edit changes, by name, and its wants. `form` finds the name of a file in what stands behind `file: `."""
    changed, wants, file, old = {}, [], None, None
    for line in edit.read_text().splitlines():
        word, _, text = line.partition(": ")
        if word == "file":
            found = re.fullmatch(form, text)
            if not found or found[1] not in texts:
                raise Bad(f"no such file: {text}")
            file = found[1]
        elif word == "old":
            old = text
        elif word == "new":
            if file is None or old is None:
                raise Bad("it does not say where or what")
            before = changed.get(file, texts[file])
            if before.count(old) != 1:
                raise Bad(f"this stands {before.count(old)} times in {file}: {old}")
            changed[file] = before.replace(old, text)
        elif word == "want":
            wants.append(text)
    if not changed or not wants:
        raise Bad("it changes nothing, or wants nothing")
    return changed, wants


def resting_on(texts, changed, named):
    """The files that change or rest on one that does, by name; `named` finds the names of files in a text."""
    texts, grown = {**texts, **changed}, set(changed)
    while more := {stem for stem, text in texts.items() if grown & set(named.findall(text))} - grown:
        grown |= more
    return {stem: texts[stem] for stem in sorted(grown)}


def put(folder, texts):
    """Files in a folder of their own, with the file beside it that declares them."""
    folder.mkdir(parents=True)
    folder.with_suffix(".antt").write_text("".join(f"pub mod {stem}\n" for stem in texts))
    for stem, text in texts.items():
        (folder / f"{stem}.antt").write_text(text)
