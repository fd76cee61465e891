#!/usr/bin/env python3
"""Respells the repository's own definitions and lemmas: words in snake case, and a dash only where it joins two names.

usage: python3 tools/spelling.py     at the top of the repository, after the kit's own script

A name is the repository's own where a file of specs/ or proofs/ declares it. Names that Rattle makes, names of src/ and
strings stay. A definition's name is in snake case throughout. A lemma's keeps a dash where both of its sides are definitions.
It prints each name that it turns, and stops where two names would fall together.
"""

import glob
import re
import sys

MARKS = r"(?:(?:abbrev|unfoldable|pub|pattern|record|data)\s+)*"
DECLARED = re.compile(r"^\s*(?:\|\s*)?" + MARKS + r"([A-Za-z][\w'-]*)(?:\s+\([^)]*\))*(?:\s*\{[\d, ℓκ]*\})?\s*:\s+(.*)$")
WORD = re.compile(r"[^\W\d][\w']*(?:-[\w']+)*")
GENERATED = re.compile(r"goal\.")

# A lemma that would have its function's name.
OWN = {"joined-wiring": "joined_wiring_lem", "page-wiring": "page_wiring_lem", "window-wiring": "window_wiring_lem"}

# Turned all the same: what has the other name is a function of src/, a field, or a definition of a crate that no file imports beside it.
APART = {"extendedAt", "extendedForm", "halfForm", "offset-of", "pageBytes", "primaryAt", "two-lives", "vectors-kept", "write-entry"}


def sources(kinds):
    for kind in kinds:
        yield from sorted(glob.glob("crates/*/%s/**/*.antt" % kind, recursive=True))


def declared(kind):
    """Name and file of what the files of a kind declare, less answers to goals."""
    found = {}
    for path in sources([kind]):
        with open(path, encoding="utf-8") as f:
            for line in f:
                if line.lstrip().startswith("--"):
                    continue
                m = DECLARED.match(line)
                if m and not GENERATED.match(m.group(2)):
                    found.setdefault(m.group(1), set()).add(path)
    return found


def snake(word):
    """A word in snake case; a type keeps its capitals."""
    if word[:1].isupper():
        return word
    return re.sub(r"(?<=[a-z0-9])([A-Z])", lambda m: "_" + m.group(1).lower(), word)


def lemma(name, definitions):
    """A lemma's name: a dash stays between two definitions."""
    parts = [snake(p) for p in name.split("-")]
    out = [parts[0]]
    for part in parts[1:]:
        if out[-1] in definitions and part in definitions:
            out.append(part)
        else:
            out[-1] += "_" + part
    return "-".join(out)


def turn(text, names):
    return WORD.sub(lambda m: names.get(m.group(0), m.group(0)), text)


def turn_source(text, names):
    """A .rt file: strings stay."""
    parts = re.split(r'("(?:[^"\\\n]|\\.)*")', text)
    return "".join(p if k % 2 else turn(p, names) for k, p in enumerate(parts))


def turn_page(text, names):
    """A page: only what stands in backticks."""
    return re.sub(r"`[^`\n]+`", lambda m: turn(m.group(0), names), text)


def main():
    definitions = declared("specs")
    lemmas = declared("proofs")
    names = {}
    for name in definitions:
        if name[:1].islower():
            names[name] = snake(name.replace("-", "_"))
    turned = set(names.values())
    for name in lemmas:
        if name[:1].islower() and name not in names:
            names[name] = lemma(name, turned)
    names.update(OWN)
    names = {old: new for old, new in names.items() if old != new}
    known = {}
    for path in sources(["specs", "proofs"]):
        with open(path, encoding="utf-8") as f:
            for m in WORD.finditer(f.read()):
                known.setdefault(m.group(0), set()).add(path)
    clash = sorted((old, new) for old, new in names.items() if new in known and old not in APART)
    for old, new in clash:
        print("together: %s and %s, which stands in %s" % (old, new, ", ".join(sorted(known[new])[:4])))
    backwards = {}
    for old, new in names.items():
        backwards.setdefault(new, []).append(old)
    for new, olds in sorted(backwards.items()):
        if len(olds) > 1:
            print("together: %s become %s" % (" and ".join(olds), new))
            clash.append(new)
    if clash:
        return 1
    for pattern, how in (("crates/*/specs/**/*.antt", turn), ("crates/*/proofs/**/*.antt", turn), ("crates/*/src/**/*.rt", turn_source), ("README.md", turn_page), ("docs/*.md", turn_page)):
        for path in sorted(glob.glob(pattern, recursive=True)):
            with open(path, encoding="utf-8") as f:
                old = f.read()
            new = how(old, names)
            if new != old:
                with open(path, "w", encoding="utf-8") as f:
                    f.write(new)
    for old, new in sorted(names.items()):
        print("%s -> %s" % (old, new))
    return 0


sys.exit(main())
