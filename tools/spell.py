#!/usr/bin/env python3
"""Brings the repository's own definitions, lemmas, fields and constructors to one spelling.

usage: tools/spell.py [--list]      at the top of the repository; --list only prints the renamings

Words are joined by underscores, and the words of a fact or a type by capitals: body-start is body_start, In-range is InRange.
Names that Rattle makes (goals, steps), names of the library and Rust's own names stay. Run once, after port.py.
"""

import pathlib
import re
import sys

# A name of antt: anything up to a space, a bracket, a dot, a comma or a semicolon.
NAME = r"[^\s(){}\[\].;,«»\"`|]+"
DEFINES = re.compile(
    r"^\s*(?:(?:abbrev|unfoldable|pub|record|data|ruleset)\s+)*(" + NAME + r")(?=[^=\"]*\s:\s|\s*:$|\s+where$)"
)
BINDS = re.compile(r"\blet\s+(" + NAME + r")\s*[:=]|\(((?:" + NAME + r"\s+)+):\s")
# Names that would fall together with another one, or that read better with other words.
CHOSEN = {"Id-state": "StateOfId", "bit-or": "bit_of_or"}


def files(kinds):
    for folder in kinds:
        yield from sorted(pathlib.Path(".").glob(f"crates/*/{folder}/**/*.*"))


def made_by_rattle(line):
    return re.search(r":\s*goal\.", line) or re.match(r"\s*(use|pub use|ghost use|unfolding)\b", line)


def code(line, mark):
    """The line's text before its comment, and the comment."""
    at = re.search(r"(^|\s)" + mark, line)
    return (line, "") if not at else (line[: at.start()], line[at.start() :])


def own_names():
    names = set()
    for path in files(["specs", "proofs"]):
        if path.suffix != ".antt":
            continue
        for line in path.read_text().splitlines():
            text, _ = code(line, "--")
            if made_by_rattle(text):
                continue
            found = DEFINES.match(text)
            if found:
                names.add(found.group(1))
            for one, many in BINDS.findall(text):
                names.update(many.split() if many else [one])
    return {n for n in names if n and (n[0].isalpha()) and ("-" in n.strip("-") or "′" in n)}


def imported():
    """Names that a use line takes from outside of the repository."""
    crates = {p.name for p in pathlib.Path("crates").iterdir()}
    names = set()
    for path in files(["specs", "proofs", "src"]):
        for line in path.read_text().splitlines():
            found = re.match(r"\s*(?:pub )?(?:ghost )?use\s+(?:Rattle\.)?(\w+)[\w.+']*\.\{(.*)\}", line)
            if found and found.group(1) not in crates:
                names.update(w.strip() for w in found.group(2).split(","))
    return names


def spelled(name):
    if name in CHOSEN:
        return CHOSEN[name]
    name = name.replace("′", "'")
    if name[0].isupper():
        return "".join(w[0].upper() + w[1:] for w in name.split("-"))
    return name.replace("-", "_")


def turned(line, renamings, mark):
    text, comment = code(line, mark)
    if re.search(r":\s*goal\.|^\s*(?:abbrev )?(?:pub )?[^\s]*\s+:\s*goal\.", text):
        return line
    text = re.sub(NAME, lambda m: renamings.get(m.group(), m.group()), text)
    comment = re.sub(r"`[^`]*`", lambda m: re.sub(NAME, lambda n: renamings.get(n.group(), n.group()), m.group()), comment)
    return text + comment


def main():
    names = own_names()
    taken = imported()
    both = names & taken
    if both:
        print("also the library's, left: " + " ".join(sorted(both)))
    renamings = {n: spelled(n) for n in sorted(names - taken)}
    if "--list" in sys.argv:
        for old, new in renamings.items():
            print(old, new)
        return
    for path in files(["specs", "proofs", "src"]):
        mark = "--" if path.suffix == ".antt" else "//"
        old = path.read_text()
        new = "\n".join(turned(l, renamings, mark) for l in old.split("\n"))
        if new != old:
            path.write_text(new)


main()
