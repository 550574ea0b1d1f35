#!/usr/bin/env python3
"""Old and new, side by side: `beside.py OLD NEW CONTRACTS` prints, for each crate, the signatures, clauses, constants, types,
definitions and laws of two checkouts that differ, as diffs. CONTRACTS is what the kit's contracts.py prints of the two with
--json. What is new and has no older form is listed of types alone; what went is not listed, but for types."""

import json
import pathlib
import re
import sys

LAW = re.compile(r"^( *)(?:abbrev )?pub (?:abbrev )?(?!use |mod |ruleset |record |data |open )([^\s:(]+) :(.*)$")
TYPE = re.compile(r"^(?:pub(?:\(crate\))? )?(struct|enum|trait) (\w+)", re.M)


def crates(root, pattern):
    """The files of all crates that a pattern finds, with their crate; nothing that was built."""
    for path in sorted(pathlib.Path(root).glob(f"crates/*/{pattern}")):
        parts = path.relative_to(root).parts
        if "out" not in parts[2:3]:
            yield parts[1], path


def laws(root):
    """The statements of the public laws of proofs/, by crate and name. A statement goes on while lines are indented more."""
    found = {}
    for crate, path in crates(root, "proofs/**/*.antt"):
        if path.name in ("Answers.antt", "Invariants.antt", "Lib.antt"):
            continue
        lines = path.read_text().splitlines()
        for n, line in enumerate(lines):
            match = LAW.match(line)
            if not match:
                continue
            text = match[3]
            for more in lines[n + 1 :]:
                if len(more) - len(more.lstrip()) <= len(match[1]) or not more.strip() or more.strip().startswith("--"):
                    break
                text += " " + more
            found.setdefault((crate, match[2]), []).append(" ".join(text.split()))
    return found


def types(root):
    """The text of each struct, enum and trait with a body, by crate and name."""
    found = {}
    for crate, path in crates(root, "src/*.rt"):
        text = re.sub(r"//[^\n]*", "", path.read_text())
        for match in TYPE.finditer(text):
            begin, deep = text.find("{", match.start()), 0
            if -1 < text.find(";", match.start()) < begin:
                continue
            for end in range(begin, len(text)):
                deep += {"{": 1, "}": -1}.get(text[end], 0)
                if not deep:
                    break
            found[crate, match[2]] = [" ".join(text[match.start() : end + 1].split())]
    return found


def changed(old, new):
    """What both have and differs, also where the only one of a name moved to another crate."""
    was, now = ([name for _, name in found] for found in (old, new))
    moved = {name: crate for crate, name in new if was.count(name) == now.count(name) == 1}
    for (crate, name), before in old.items():
        after = new.get((crate, name)) or new.get((moved.get(name), name))
        if after and sorted(after) != sorted(before):
            yield crate, name, before, after


def clauses(kind, own, other):
    return [f"{kind} {name + ' ' if name else ''}{{ {text} }}" for name, text in own if [name, text] not in other]


def rows(old, new, contracts):
    """Crate, heading, old lines and new lines."""
    a, b = types(old), types(new)
    yield from ((crate, f"type {name}", before, after) for crate, name, before, after in changed(a, b))
    here = {name for _, name in b}, {name for _, name in a}
    yield from ((crate, f"type {name}", text, []) for (crate, name), text in a.items() if name not in here[0])
    yield from ((crate, f"type {name}", [], text) for (crate, name), text in b.items() if name not in here[1])
    for place, before, after in contracts["signatures changed"]:
        yield *place.split(" ", 1), [before], [after]
    for place, requires, ensures, new_requires, new_ensures in contracts["contracts changed"]:
        before = clauses("requires", requires, new_requires) + clauses("ensures", ensures, new_ensures)
        after = clauses("requires", new_requires, requires) + clauses("ensures", new_ensures, ensures)
        yield *place.split(" ", 1), before, after
    for crate, kind, name, before, after in contracts["ghost items and constants"].get("changed", []):
        yield crate, f"{kind} {name}", before, after
    for crate, name, before, after in contracts["definitions"].get("changed", []):
        yield crate, f"definition {name}", before, after
    yield from ((crate, f"law {name}", before, after) for crate, name, before, after in changed(laws(old), laws(new)))


def page(old, new, contracts):
    listed = {}
    for crate, heading, before, after in rows(old, new, contracts):
        lines = [f"- {line}" for line in before] + [f"+ {line}" for line in after]
        if lines:
            listed.setdefault(crate, {}).setdefault(f"@ {heading}", []).extend(lines)
    for crate in sorted(listed):
        print(f"### {crate}\n\n```diff")
        for heading, lines in listed[crate].items():
            print(heading, *lines, sep="\n")
        print("```\n")


if __name__ == "__main__":
    if len(sys.argv) != 4:
        sys.exit(__doc__)
    page(sys.argv[1], sys.argv[2], json.loads(pathlib.Path(sys.argv[3]).read_text()))
