#!/usr/bin/env python3
"""Respells this repository's own definitions, facts and lemmas: words in snake case, facts and types in upper camel case.

usage: python3 tools/snake_names.py        at the top of the repository, once, right after Rattle's own port.py

A name counts as the repository's own if a file of specs/ or proofs/ declares it, or a `use` line gives it by `as`. Names that Rattle makes
(the goals that a file of answers answers) keep their dashes. Strings, inputs, outputs and the functions of src/ are left alone; in comments
only what stands in backticks is respelled, and in docs/ and README.md too.
"""

import glob
import re
import sys

# Names that would fall together with a word of the library, or with the function that they are about.
BY_HAND = {
    "bit-and": "bit_in_and",
    "bit-or": "bit_in_or",
    "nothing-leaks": "nothing_leaks_lem",
    "getD-zeros": "get_or_zeros",
}

DECLARED = re.compile(r"^\s*(?:(?:abbrev|unfoldable|pub)\s+)*([^\s(){}:.,λ]+)\s*(?:[({].*)?\s*:\s")
TYPE = re.compile(r"^\s*(?:pub\s+)?(?:record|data)\s+([^\s(){}:]+)")
GOAL = re.compile(r"^\s*(?:(?:abbrev|unfoldable|pub)\s+)*[^\s(){}:.,λ]+\s*:\s*goal\.")
BINDER = re.compile(r"[({]([^(){}:=λ]+?) : ")
LET = re.compile(r"\blet ([^\s(){}:.,λ]+)(?= [:=])")
USE = re.compile(r"^\s*(?:pub |ghost )?use ([\w.]+?)\.\{([^}]*)\}", re.M)
ALIAS = re.compile(r"\bas ([^\s(){},;.]+)")
TOKEN = re.compile(r"[^\s(){}\[\]:.,;λ|\"`∷]+")
BACKTICKS = re.compile(r"`[^`\n]*`")


def files(kind):
    return sorted(p for p in glob.glob("crates/**/*" + kind, recursive=True) if "/out/" not in p and "/target/" not in p)


def respelled(name):
    if name in BY_HAND:
        return BY_HAND[name]
    if name[0].isupper():
        return "".join(word[0].upper() + word[1:] for word in name.split("-"))
    return name.replace("-", "_").replace("′", "'")


def imported():
    """The words that come from the library, by their own names."""
    crates = {p.split("/")[1] for p in glob.glob("crates/*/")}
    names = set()
    for path in files(".antt") + files(".rt"):
        with open(path) as f:
            for module, words in USE.findall(f.read()):
                parts = module.split(".")
                if parts[0] != "Rattle" or parts[1] not in crates:
                    names.update(w.split(" as ")[0].strip() for w in words.split(","))
    return names


def own_names():
    goals, names = imported(), set()
    for path in files(".antt"):
        with open(path) as f:
            for line in f:
                if line.lstrip().startswith("--"):
                    continue
                declared = DECLARED.match(line) or TYPE.match(line)
                if declared:
                    (goals if GOAL.search(line) else names).add(declared.group(1))
                if re.match(r"\s*(pub )?use ", line):
                    names.update(ALIAS.findall(line))
                else:
                    names.update(word for group in BINDER.findall(line) for word in group.split())
                    names.update(LET.findall(line))
    for path in files(".rt"):
        with open(path) as f:
            for line in f:
                if line.lstrip().startswith("ghost use "):
                    names.update(ALIAS.findall(line))
    return {n for n in names - goals if ("-" in n or "′" in n) and re.match(r"\w", n)}


def main():
    own = own_names()
    new = {n: respelled(n) for n in own}
    together = [v for v in new.values() if list(new.values()).count(v) > 1]
    if together:
        print("fall together: " + ", ".join(sorted(set(together))))
        return 1

    def words(text):
        return TOKEN.sub(lambda m: new.get(m.group(0), m.group(0)), text)

    def ticks(text):
        return BACKTICKS.sub(lambda m: words(m.group(0)), text)

    def line_of(line, mark):
        # Strings and the comment stay, but for what the comment cites in backticks.
        cut = re.match(r'((?:[^"]|"(?:[^"\\]|\\.)*")*?)(' + mark + r".*)$", line, re.S)
        code, comment = cut.groups() if cut else (line, "")
        parts = re.split(r'("(?:[^"\\]|\\.)*")', code)
        return "".join(p if p.startswith('"') else words(p) for p in parts) + ticks(comment)

    for path in files(".antt") + files(".rt") + files(".edit") + sorted(glob.glob("docs/*.md")) + ["README.md"]:
        with open(path) as f:
            before = f.read()
        if path.endswith(".md"):
            after = ticks(before)
        else:
            mark = "--" if path.endswith(".antt") else "//"
            after = "".join(line_of(line, mark) for line in before.splitlines(keepends=True))
        if after != before:
            with open(path, "w") as f:
                f.write(after)
    print(f"{len(own)} names respelled")
    return 0


if __name__ == "__main__":
    sys.exit(main())
