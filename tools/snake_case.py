#!/usr/bin/env python3
"""Brings the repository's own definitions and lemmas to snake case, as the Rattle of docs/PORT.md spells them.

usage: python3 tools/snake_case.py          at the top of the repository, once, after port.py

Types and modules keep their camel case, and functions of src/, exported names and texts keep theirs. A lemma that would fall together
with a definition or another lemma gets `_lem` behind its name. What is renamed is printed.
"""

import pathlib
import re

HEAD = re.compile(r"^\s*(?:(?:unfoldable|abbrev|pub|irreducible)\s+)*([^\s:{}(),;.λ\"]+)(?:\s+[^\s:(){}]+)*\s+:\s")
WORD = re.compile(r"(?<![\w'′·₀-₉-])([A-Za-z][\w'′·₀-₉-]*)")
ALIAS = re.compile(r" as ([a-z][A-Za-z]*)")
KEYWORDS = {"use", "mod", "module", "let", "where", "data", "record", "elim", "file", "old", "new"}


def snake(name):
    name = re.sub(r"([a-z0-9])([A-Z])", lambda m: m[1] + "_" + m[2].lower(), name)
    return name.replace("-", "_")


def sources(kind):
    for crate in sorted(pathlib.Path("crates").iterdir()):
        if kind == "own":
            yield from sorted(crate.glob("specs/*.antt"))
            yield from sorted(crate.glob("proofs/*.antt"))
        else:
            yield from sorted(crate.glob("specs/**/*.antt"))
            yield from sorted(crate.glob("proofs/**/*.antt"))
            yield from sorted(crate.glob("src/*.rt"))
            yield from sorted(crate.glob("must-fail/*.edit"))


def defined():
    """Own name -> the files that define it."""
    own = {}
    for path in sources("own"):
        for line in path.read_text().split("\n"):
            found = HEAD.match(line)
            if found and found[1] not in KEYWORDS and not line.lstrip().startswith(("--", "use ", "let ", "module ")):
                own.setdefault(found[1], set()).add(path)
            for alias in ALIAS.findall(line) if line.startswith("use ") else ():
                own.setdefault(alias, set()).add(path)
    return own


def renames(own):
    taken = {n for n in own if snake(n) == n}
    plan = {}
    for name in sorted(n for n in own if n[0].islower() and snake(n) != n and "-" not in n and snake(n) in taken):
        # a lemma that port.py gave the name gives way to the definition
        if all("proofs" in path.parts for path in own[snake(name)]):
            plan[snake(name)] = snake(name) + "_lem"
            taken.remove(snake(name))
            taken.add(plan[snake(name)])
    # definitions first, so that a lemma gives way
    for name in sorted((n for n in own if snake(n) != n), key=lambda n: ("-" in n, n)):
        if not name[0].islower():
            continue
        to = snake(name)
        while to in taken:
            to += "_lem"
        taken.add(to)
        plan[name] = to
    return plan


def main():
    own = defined()
    plan = renames(own)
    named = set(own) | set(plan.values())
    for path in sources("all"):
        text = path.read_text()
        hand = path.name in ("Proof.antt",)

        def turn(m):
            word = m[1]
            before = text[m.start() - 1] if m.start() else ""
            # an edit has the names that stood before port.py
            if path.suffix == ".edit" and word not in plan and word[0].islower() and snake(word) != word and snake(word) in named:
                return snake(word)
            if word not in plan or before == '"':
                return word
            # what Rattle generates for a step of a function's proof is no name of ours, nor is a function's module
            if before == "." and (hand and "-" in word or word == snake(word)):
                return word
            if word == snake(word) and (path.suffix == ".rt" or text[m.end():m.end() + 1] == "."):
                return word
            return plan[word]

        turned = WORD.sub(turn, text)
        if turned != text:
            path.write_text(turned)
    for name, to in sorted(plan.items()):
        print(f"{name} -> {to}" + ("   (fell together)" if to.endswith("_lem") else ""))


main()
