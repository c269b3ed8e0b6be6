#!/usr/bin/env python3
"""Spells the repository's own definitions and lemmas as today's Rattle does, after port.py has turned the rest (docs/PORT.md).

  python3 tools/spell.py            at the top of the repository, once, right after `python3 /opt/rattle/port/port.py`
  python3 tools/spell.py --names    writes only what it would rename, a line `OLD NEW` for each name

Words are in snake case, facts and modules in camel case. In a lemma's name a dash joins two names, and a plain word is added with `_`. A
lemma that would get the name of a function has `_lem` behind it. Constructors stay as they are. Text goes by tokens: in .antt files all but
strings, and of comments only what cannot be English; in .rt files clauses, ghost fields and `ghost use` lines; of edits the same.
"""
import pathlib
import re
import sys

ROOT = pathlib.Path.cwd()
# definitions that say a fact, with a small first letter at the commit before
FACTS = {
    'frontedAt': 'IsFrontedAt',
    'asks_none': 'AsksNone',
}
# and those whose name means something else elsewhere: by crate, in the files that name the module
FACTS_OF = {
    'cutback': ('Walk', {'inside': 'IsInside'}),
    'sheets_promises': ('Wrong', {'fails': 'IsFailing'}),
}
# words of the kit's library, and of the logic, that the first part of a lemma's name may be
KIT = set('length take drop map append cons zero suc add mul sub div mod set get get_or mem filter sum min max cond eqb ltb leb not and or '
          'fold position'.split())
TOKEN = re.compile(r"[^\s(){}\[\],;.:=\"«»]+")
STRING = re.compile(r'"(?:[^"\\]|\\.)*"')
HEAD = re.compile(r"^(\s*)((?:(?:pub|abbrev|unfoldable)\s+)*)([^\s(){};,.:=\"λ]+) :(?:\s|$)")
SHUT = re.compile(r'^(?:use|module|let|in|elim|record|data|where|open|package|ruleset)$')
# names that Rattle makes, or made: goals, steps and records of a function's proof
MADE = re.compile(r'^(Need|need|tie|goal|loop|invariant|decreases|returns|overflow|slice|shared|if\d|t\d+|in_|in-|then|else|holds)([-_].*)?$')


def antt_files():
    for folder in ('specs', 'proofs'):
        yield from sorted(ROOT.glob(f'crates/*/{folder}/**/*.antt'))


def lemma_files():
    """Files whose names are for others too: specs, and lemma files of proofs; a function's own proof has names of its own."""
    for p in antt_files():
        rest = p.relative_to(ROOT).parts[2:]
        if rest[0] == 'specs' or len(rest) == 2:
            yield p


def snake(part):
    part = re.sub(r'([a-z0-9])([A-Z])', r'\1_\2', part)
    return re.sub(r'([A-Z]+)([A-Z][a-z])', r'\1_\2', part).lower()


def defined():
    """Each name that a lemma file defines, with whether it is a function (an abbrev or unfoldable definition)."""
    names, types = {}, set()
    for p in lemma_files():
        for line in p.read_text(encoding='utf-8').splitlines():
            line = STRING.sub('""', line)
            if re.match(r'^\s*(pub )?(abbrev pub |abbrev )?(data|record) ', line):
                types.add(re.sub(r'^\s*(?:pub |abbrev )*(?:data|record) (\S+).*', r'\1', line))
                continue
            found = HEAD.match(line)
            if not found or SHUT.match(found[3]) or line.lstrip().startswith('--'):
                continue
            function = 'abbrev' in found[2] or 'unfoldable' in found[2] or bool(re.fullmatch('[a-z]+[A-Z][A-Za-z]*', found[3]))
            names[found[3]] = names.get(found[3], False) or function
    return names, types


def tokens_in_use():
    """Each word that stands bare, and so not as a field or a part of a path, with the files in which it does."""
    used = {}
    for p in antt_files():
        for line in p.read_text(encoding='utf-8').splitlines():
            code = STRING.sub('""', line).split('--')[0]
            for word in re.findall(r"(?<![.\w'-])" + TOKEN.pattern, code):
                used.setdefault(word, set()).add(p)
    return used


def rust_names():
    """Names that a clause sees from the code: parameters, fields, constants."""
    seen = set()
    for p in sorted(ROOT.glob('crates/*/src/**/*.rt')):
        text = p.read_text(encoding='utf-8')
        seen.update(re.findall(r'\b([a-z_][a-z0-9_]*)\s*:\s', text))
        seen.update(re.findall(r'\bconst ([A-Z_0-9]+)', text))
    return seen


def dashed(name, known):
    """A lemma's name: a dash stays only where a name stands on both sides of it."""
    parts = name.split('-')
    out = snake(parts[0])
    for before, part in zip(parts, parts[1:]):
        joined = before in known and part in known
        out += ('-' if joined else '_') + snake(part)
    return out


def renames():
    names, types = defined()
    functions = {n for n, f in names.items() if f and re.search('[A-Z_]', n)} | KIT
    used, rust = tokens_in_use(), rust_names()
    out = {}
    for name in sorted(names, key=lambda n: (not names[n], n)):
        if name in FACTS:
            new = FACTS[name]
        elif not re.match(r'^[a-z]', name) or MADE.match(name):
            continue
        elif names[name]:
            new = snake(name).replace('-', '_')
        else:
            new = dashed(name, functions)
        if new == name:
            continue
        # no file may have both words: else what one means would fall together with the other
        while used.get(new, set()) & used.get(name, set()) or new in types or new in rust:
            new += '_lem' if not names[name] else '_of'
        used.setdefault(new, set()).update(used.get(name, set()))
        out[name] = new
    return out


def of_crate(p, to):
    module, facts = FACTS_OF.get(p.relative_to(ROOT).parts[1], ('', {}))
    text = p.read_text(encoding='utf-8')
    named = rf'specs\.{module}\.\{{[^}}]*\b(?:{"|".join(facts)})\b'
    return to | facts if module and (p.stem == module or re.search(named, text)) else to


def spelled(text, to, comment=False):
    def one(found):
        word = found[0]
        if word in to and not (comment and ('-' in word or not re.search('[A-Z]', word))):
            return to[word]
        return word
    parts, last = [], 0
    for string in STRING.finditer(text):
        parts += [TOKEN.sub(one, text[last:string.start()]), string[0]]
        last = string.end()
    return ''.join(parts + [TOKEN.sub(one, text[last:])])


def antt(text, to):
    lines = []
    for line in text.split('\n'):
        bare = STRING.sub(lambda s: '"' + '_' * (len(s[0]) - 2) + '"', line)
        at = re.search(r'(^|\s)--(\s|$)', bare)
        if at:
            lines.append(spelled(line[:at.start()], to) + spelled(line[at.start():], to, True))
        else:
            lines.append(spelled(line, to))
    return '\n'.join(lines)


def rattle(text, to):
    """Clauses, ghost fields and `ghost use` lines of a .rt file."""
    out, last = [], 0
    for head in re.finditer(r'\bghost use [^;]*;|\b(?:requires|ensures|ghost)\*?(?: \w+:?)? \{', text):
        if head.start() < last or re.search(r'//[^\n]*$', text[:head.start()]):
            continue
        end = head.end()
        if text[end - 1] == '{':
            depth = 1
            while depth:
                depth += {'{': 1, '}': -1}.get(text[end], 0)
                end += 1
        out += [text[last:head.start()], spelled(text[head.start():end], to)]
        last = end
    return ''.join(out + [text[last:]])


def edit(text, to):
    """An edit: of a Rust line only the names that no Rust line can have."""
    lines = []
    for line in text.split('\n'):
        key = re.match(r'^(old|new): ', line)
        lines.append(line[:5] + spelled(line[5:], to) if key else line)
    return '\n'.join(lines)


def main():
    to = renames()
    if sys.argv[1:] == ['--names']:
        print('\n'.join(f'{a} {b}' for a, b in sorted(to.items())))
        return
    for p in antt_files():
        old = p.read_text(encoding='utf-8')
        new = antt(old, of_crate(p, to))
        if new != old:
            p.write_text(new, encoding='utf-8')
    for p in sorted(ROOT.glob('crates/*/src/**/*.rt')):
        old = p.read_text(encoding='utf-8')
        new = rattle(old, of_crate(p, to))
        if new != old:
            p.write_text(new, encoding='utf-8')
    for p in sorted([*ROOT.glob('crates/*/must-fail/*.edit'), *ROOT.glob('crates/*/weakened/*'), *ROOT.glob('crates/*/wrong/*')]):
        if p.is_file():
            old = p.read_text(encoding='utf-8')
            new = edit(old, of_crate(p, to))
            if new != old:
                p.write_text(new, encoding='utf-8')
    print(f'{len(to)} names')


main()
