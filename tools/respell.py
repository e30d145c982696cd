#!/usr/bin/env python3
"""Gives the repository's own definitions, lemmas, fields and constructors of specs/ and proofs/ today's spelling.

usage: python3 tools/respell.py [ROOT]      once, after port.py, at the top of the repository (or of ROOT)

A fact or a type is written in upper camel case (`All-fit` becomes `AllFit`), every other name in snake case (`chain-of`
becomes `chain_of`). A lemma whose name joins two names of the library keeps its dash (KEPT). Names that the check makes,
as `loop-i-preserved` or `c.in_ok-push`, and names of Rust text are left alone; so are strings, comments of code,
inputs and outputs. It stops where two names would fall together. A second run changes nothing.
"""

import os
import re
import sys

# Lemmas whose names join two names: a call of a library function on what another function gives.
KEPT = {"length-join", "length-stamped", "map-replicate"}
# Facts that were written in lower case.
FACTS = {"put-steps": "PutSteps"}
ANSWERS = ("Answers.antt", "Invariants.antt", "Proof.antt")
NAME = r"[A-Za-zℕ_][A-Za-z0-9_'ℕ₀-₉]*(?:-[A-Za-z0-9_'ℕ₀-₉]+)*"
TOKEN = re.compile(NAME)
DECLARED = re.compile(r"^ *(?:(?:abbrev|unfoldable) )?(?:pub )?(?:record |data |ruleset )?(" + NAME + r"(?: " + NAME + r")*)(?: [({].*[)}])? :")
LOCAL = re.compile(r"(?:\blet|;|\{) +(" + NAME + r")(?= *[:=])|[({](" + NAME + r"(?: " + NAME + r")*)(?= :)")
BOUND = re.compile(r"λ((?: +[^\s.()]+)+)\.")
ALIAS = re.compile(r" as (" + NAME + r")(?=[,}])")
LEFT = re.compile(r"^ *" + NAME + r"((?: [^=:]*)?) =(?: |$)", re.M)
IMPORT = re.compile(r"\buse ([A-Za-z][\w.]*)\.\{([^}]*)\}")
WORDS = {"let", "in", "use", "mod", "module", "where", "elim", "record", "data"}


def files(root, *ends):
    for folder, dirs, names in os.walk(os.path.join(root, "crates")):
        dirs[:] = sorted(d for d in dirs if d != "out")
        for name in sorted(names):
            if name.endswith(ends):
                yield os.path.join(folder, name)


def read(path):
    with open(path, encoding="utf-8") as f:
        return f.read()


def spelled(name):
    if name in FACTS:
        return FACTS[name]
    if name in KEPT:
        return name
    if name[0].isupper():
        return "".join(w[:1].upper() + w[1:] for w in re.split("[-_]", name))
    return name.replace("-", "_")


def declared(root):
    """The names that the files of specs/ and proofs/ declare, and those of proof files that are no goals."""
    names = set()
    for path in files(root, ".antt"):
        answers = os.path.basename(path) in ANSWERS
        for line in read(path).splitlines():
            it = DECLARED.match(line)
            if it and not (answers and " : goal." in line):
                names |= set(it.group(1).split()) - WORDS
    return names


def table(names):
    new = {n: spelled(n) for n in names if spelled(n) != n}
    by = {}
    for n in names:
        by.setdefault(spelled(n), set()).add(n)
    together = {k: sorted(v) for k, v in by.items() if len(v) > 1}
    if together:
        raise SystemExit(f"respell: names that would fall together: {together}")
    return new


def turn(text, new, local=frozenset()):
    """Replaces whole names; a name behind a dot only if it is declared."""
    def one(it):
        word = it.group(0)
        dotted = it.start() > 0 and text[it.start() - 1] == "."
        if word in new:
            return new[word]
        if not dotted and word in local:
            return word.replace("-", "_")
        return word
    return TOKEN.sub(one, text)


def locals_of(text):
    found = {n for a, b in LOCAL.findall(text) for n in (a or b).split()}
    for names in BOUND.findall(text) + LEFT.findall(text):
        found |= set(TOKEN.findall(names))
    found |= set(ALIAS.findall(text))
    return {n for n in found if "-" in n and n not in WORDS}


def foreign(text, crates):
    """The names that the file takes from the kit, and those that the check makes of a function's code."""
    found = set(re.findall(r"\bgoal\.(" + NAME + ")", text))
    for module, names in IMPORT.findall(text):
        parts = module.split(".")
        if parts[0] != "Rattle" or parts[1] not in crates or parts[-1] in ("Goals", "Given"):
            found |= {n.split(" as ")[-1].strip() for n in names.split(",")}
    return found


def turn_antt(text, new, crates):
    """Names in clauses and terms; comments keep their words but for a name in backticks."""
    keep = foreign(text, crates)
    new = {k: v for k, v in new.items() if k not in keep}
    own = locals_of(re.sub(r"--.*", "", text)) - keep
    out = []
    for line in text.split("\n"):
        code, dashes, comment = line.partition("-- ") if not line.strip().startswith("--") else ("", "", line)
        out.append(turn(code, new, own) + dashes + ticked(comment, new))
    return "\n".join(out)


def ticked(text, new):
    return re.sub(r"`[^`\n]+`", lambda it: turn(it.group(0), new), text)


def turn_rt(text, new, crates):
    """Names in clauses and ghost items: outside strings and comments."""
    keep = foreign(text, crates)
    new = {k: v for k, v in new.items() if k not in keep}
    own = set(ALIAS.findall(text)) - keep
    piece = re.compile(r'//[^\n]*|"(?:\\.|[^"\\])*"')
    out, at = [], 0
    for it in piece.finditer(text):
        out += [turn(text[at:it.start()], new, own), ticked(it.group(0), new) if it.group(0).startswith("//") else it.group(0)]
        at = it.end()
    return "".join(out + [turn(text[at:], new, own)])


def write(path, old, text):
    if text != old:
        with open(path, "w", encoding="utf-8") as f:
            f.write(text)
        return 1
    return 0


def main(argv):
    root = argv[0] if argv else "."
    new = table(declared(root))
    crates = set(os.listdir(os.path.join(root, "crates")))
    changed = 0
    for path in files(root, ".antt"):
        changed += write(path, read(path), turn_antt(read(path), new, crates))
    for path in files(root, ".rt", ".edit"):
        changed += write(path, read(path), turn_rt(read(path), new, crates))
    pages = [os.path.join(root, "README.md")]
    if os.path.isdir(os.path.join(root, "docs")):
        pages += [os.path.join(root, "docs", p) for p in sorted(os.listdir(os.path.join(root, "docs"))) if p.endswith(".md") and not p.startswith("PORT")]
    for path in pages:
        if os.path.isfile(path):
            changed += write(path, read(path), ticked(read(path), new))
    print(f"respell: {len(new)} names, {changed} files")
    return 0


if __name__ == "__main__":
    raise SystemExit(main(sys.argv[1:]))
