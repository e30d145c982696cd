#!/usr/bin/env python3
"""Counts the places that docs/DESIGN-PASS.md speaks of, point by point, and lists them with -v.

usage: tools/places.py [-v] [TREE]
"""
import collections
import glob
import re
import sys

verbose = "-v" in sys.argv
rest = [a for a in sys.argv[1:] if a != "-v"]
tree = rest[0] if rest else "."

SOURCES = sorted(glob.glob(tree + "/crates/*/src/**/*.rt", recursive=True))
PROOFS = sorted(glob.glob(tree + "/crates/*/proofs/**/*.antt", recursive=True))
TEXT = {path: open(path).read() for path in SOURCES}


def lines(pattern):
    found = []
    for path, text in TEXT.items():
        for number, line in enumerate(text.split("\n"), 1):
            if re.search(pattern, line) and not line.lstrip().startswith("//"):
                found.append(f"{path[len(tree) + 8:]}:{number}: {line.strip()}")
    return found


def show(title, found):
    print(f"{title}: {len(found)}")
    if verbose:
        for place in found:
            print("    " + place)


show("1a enums of its own", lines(r"^\s*(pub(\([a-z]+\))? )?enum "))
show("1b numbers for kinds", lines(r"pub const [A-Z_]+: u16|mode: u8,"))
show("1c flags in structs", lines(r"^\s+(pub(\([a-z]+\))? )?[a-z_]+: bool,"))
show(
    "1d results and options taken apart by hand",
    lines(
        r"Err\((refusal|_|e|error)\) => (return )?(Err|None)|None => None|\.is_err\(\) \{|Ok\(\(\)\) => (Ok|\{)"
        r"|let (Ok|Some)\(.*\) = .* else|Err\(AllocError\)|Some\(.*\) => Some\(|Ok\(.*\) => (Some|Ok)\("
    ),
)

signatures = collections.Counter()
for path, text in TEXT.items():
    body = re.sub(r"//.*", "", text)
    for m in re.finditer(r"fn (\w+)(?:<[^(]*>)?\(([^)]*)\)[^{;]*?(?:\n    (?:requires|ensures)[^\n]*)*\s*\{\n(.*?)\n(?:    )?\}\n", body, re.S):
        shape = re.sub(r"\b[A-Za-z_]\w*\b|\d+", "n", m.group(3))
        shape = re.sub(r"\s+", " ", shape)
        if len(shape) > 40:
            signatures[shape] += 1
print("2 functions whose bodies differ in names and constants alone:", sum(n for n in signatures.values() if n > 1), "in", sum(1 for n in signatures.values() if n > 1), "groups")

show("3 loops", lines(r"^\s*('[a-z]+: )?(for|while|loop)\b.*\{$"))
show("3 loops that count", lines(r"^\s*('[a-z]+: )?(for \w+ in [^{]*\.\.|while )"))

show("4a conversions and printing by hand", lines(r"^impl.* (From<.*>|TryFrom<.*>|(fmt::)?Display|PartialEq|PartialOrd|Ord|Clone) for "))
show("4b numbers widened, narrowed and put together by hand", lines(r" as u(8|16|32)\b|\* 0x1"))

clauses = collections.Counter()
pairs = collections.Counter()
for path, text in TEXT.items():
    for m in re.finditer(r"^\s*(requires|ensures)\s*\w*\s*\{ (.*) \}$", text, re.M):
        clauses[m.group(1) + " " + m.group(2)] += 1
    for m in re.finditer(r"\bfn (\w+)(<[^(]*>)?\(([^)]*)\)", text):
        names = [p.split(":")[0].strip().replace("mut ", "") for p in m.group(3).split(",") if ":" in p]
        for i in range(len(names)):
            for j in range(i + 1, len(names)):
                pairs[tuple(sorted((names[i], names[j])))] += 1
often = [(n, c) for c, n in clauses.most_common() if n >= 3]
show("5a clauses that stand word for word in three or more contracts", [f"{n} {c[:150]}" for n, c in often])
together = [(n, p) for p, n in pairs.most_common() if n >= 5]
show("5b parameters that travel together in five or more functions", [f"{n} {p}" for n, p in together])

show("6 rows with a length beside them, and rows beside rows", lines(r"\[\w+(<\w+>)?; \w+\](, usize|,$)|: Vec<.*>,$"))
show("7 a switch by a number, a function pointer, dyn", lines(r"^\s+\d+ => |\bfn\(|\bdyn\b|match case"))

answers = sum(len(re.findall(r"^pub [^\n]* : goal\.", open(p).read(), re.M)) for p in PROOFS)
print("8 answers in proofs/:", answers, "; lines of proofs/:", sum(open(p).read().count("\n") for p in PROOFS), "; lines of src/:", sum(t.count("\n") for t in TEXT.values()))
