#!/usr/bin/env python3
"""Brings this repository's own definitions and lemmas to the spelling of today's Rattle.

usage: python3 tools/respell.py [--list]       at the top of the repository, once, right after port.py

Functions, lemmas, fields and constructors of specs/ and proofs/ are in snake case; types and modules keep their
capitals. A dash stays where it joins two names (a type, or a definition of specs/ or of the library) and becomes an
underscore elsewhere; a lemma that would fall together with a definition gets `_lem`. Names of src/ stay: there only
clauses, `ghost use` lines and comments are turned. The texts of must-fail edits are turned with them. --list prints
the table and writes nothing.
"""
import collections
import glob
import re
import sys

DEFINED = re.compile(r"^(?:(?:abbrev|unfoldable|pub|ruleset) )*([^\s:{(=]+)\s*(?::|=)")
MEMBER = re.compile(r"^\s+(?:pub )?([^\s:({]+)\s*:(?:\s|$)")
INNER = re.compile(r"^\s+(?:(?:abbrev|unfoldable|pub|ruleset) )*([^\s:{(=]+)\s*:(?:\s|$)")
FAMILY = re.compile(r"^(?:(?:abbrev|unfoldable|pub) )*(data|record|module|mutual)\b ?([^\s:({]*)")
ALIAS = re.compile(r"^(?:pub )?use \S+ as (\w+)")
TOKEN = re.compile(r"[A-Za-z][A-Za-z0-9_'₀-₉′-]*")
LIBRARY = "length take drop set get_or sum map append reverse filter fold".split()
# Where the plain rule would give a word of the library, or a name that says too little.
BY_HAND = {"bit-and": "bit-bit_and", "bit-or": "bit-bit_or", "kind-of": "kind_is"}

# Variables and second names of imports that are spelled as definitions were.
OTHERS = "bodyFrom definitionFrom fieldsAfter insideFrom labelsAfter operandFrom sentenceVerdictOf".split()


def defined(files):
    """The names, each with what it is: type, constructor, field, or the folder where it is defined."""
    kinds = collections.defaultdict(set)
    for file in files:
        folder, inside = file.split("/")[2], None
        for line in open(file, encoding="utf-8"):
            family = FAMILY.match(line)
            if family:
                inside = family[1]
                if inside in ("data", "record"):
                    kinds[family[2]].add("type")
            elif line.strip() and not line[0].isspace():
                inside = None
                name = DEFINED.match(line)
                if name and not line.startswith(("use ", "--")):
                    kinds[name[1]].add(folder)
                elif ALIAS.match(line):
                    kinds[ALIAS.match(line)[1]].add("alias")
            elif inside in ("module", "mutual") and INNER.match(line):
                kinds[INNER.match(line)[1]].add("inner " + folder)
            elif inside and MEMBER.match(line):
                kinds[MEMBER.match(line)[1]].add("constructor" if inside == "data" else "field")
    return kinds


def snake(word):
    if not word[0].islower():
        return word
    word = re.sub(r"^getD\b", "get_or", word)
    return re.sub(r"_?([A-Z])", lambda it: "_" + it[1].lower(), word)


def plain(name, names):
    parts = [snake(it) for it in name.split("-")]
    said = parts[0]
    for before, part in zip(parts, parts[1:]):
        joins = before in names and part in names or not name[0].islower()
        said += ("-" if joins else "_") + part
    return said


def table(kinds):
    names = {snake(it) for it, what in kinds.items() if "specs" in what or "type" in what} | set(LIBRARY)
    turned = {it: BY_HAND.get(it) or plain(it, names) for it in kinds}
    heirs = collections.defaultdict(list)
    for old, new in turned.items():
        heirs[new].append(old)
    for new, olds in heirs.items():
        # A definition of specs/, or a function of proofs/, comes before a lemma.
        olds.sort(key=lambda it: ("specs" not in kinds[it], it == snake(it), it))
        for lemma in olds[1:]:
            turned[lemma] = new + "_lem"
    turned |= {it: snake(it) for it in OTHERS}
    return {old: new for old, new in turned.items() if old != new}


def turn(text, names, fields):
    """Each own name in a text, but behind a dot only fields and what has a capital, which no made name has."""
    def one(found):
        word = found[0]
        behind = found.start() and text[found.start() - 1] == "."
        if word not in names or behind and word not in fields and word == word.lower():
            return word
        return names[word]
    return TOKEN.sub(one, text)


def turn_source(text, names, fields):
    """A file of src/: clauses, `ghost use` lines and comments alone."""
    said, depth = [], 0
    for line in text.splitlines(True):
        if depth or re.match(r"\s*(requires|ensures|ghost)\b", line):
            depth += line.count("{") - line.count("}")
            line = turn(line, names, fields)
        elif "//" in line:
            at = line.index("//")
            line = line[:at] + turn(line[at:], names, fields)
        said.append(line)
    return "".join(said)


def turn_local(text, names):
    """A proof of a function: the lemmas that it has for itself, but no goal, invariant or statement."""
    own = {}
    for line in text.splitlines():
        name = DEFINED.match(line)
        if name and not re.search(r": (tie|goal|\{M)\b", line) and not line.startswith(("use ", "--")):
            own[name[1]] = plain(name[1], set())
    return turn(text, {old: new for old, new in own.items() if old != new}, set())


def main():
    kinds = defined(sorted(glob.glob("crates/*/specs/*.antt") + glob.glob("crates/*/proofs/*.antt")))
    names = table(kinds)
    fields = {it for it, what in kinds.items() if "field" in what}
    if "--list" in sys.argv:
        for old, new in sorted(names.items()):
            print(old, new)
        return
    marked = {old: new for old, new in names.items() if old != old.lower() or "-" in old}
    for file in glob.glob("crates/*/specs/*.antt") + glob.glob("crates/*/proofs/**/*.antt", recursive=True) \
            + glob.glob("crates/*/src/*.rt") + glob.glob("crates/*/must-fail/*.edit"):
        with open(file, encoding="utf-8") as it:
            text = it.read()
        if file.endswith(".rt"):
            new = turn_source(text, marked, fields)
        elif file.endswith(".edit"):
            new = turn(text, marked, fields)
        else:
            new = turn(text, names, fields)
            if file.endswith("/Proof.antt"):
                new = turn_local(new, names)
        if new != text:
            with open(file, "w", encoding="utf-8") as it:
                it.write(new)


if __name__ == "__main__":
    main()
