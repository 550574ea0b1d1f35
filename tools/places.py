#!/usr/bin/env python3
"""Counts the places of crates/*/src that may be written in a plainer form of the language, and lists them.

    python3 tools/places.py [CHECKOUT] [--list]

The points are those of docs/DESIGN-PASS.md: a row is a place to look at, not a fault.
"""
import argparse
import re
from collections import defaultdict
from pathlib import Path

from unstated import closed

HERE = Path(__file__).resolve().parent.parent
HEAD = re.compile(r"^[ \t]*(?:pub )?fn (\w+)\s*(?=[<(])", re.M)
WORD = re.compile(r"[^\W\d]\w*|\d[\w.]*|\S")
KEPT = set(
    "fn pub let mut if else match while for in return self Self true false as struct enum impl"
    " f64 u8 u32 u64 usize bool requires ensures result".split()
)
# What one line shows. The other points need whole functions.
LINES = {
    "1 enums and flags": [
        r"^\s*(?:pub )?enum \w+",
        r"^\s+(?:pub )?\w+: bool,$",
        r"refused\(\d+\)",
        r"^\s*(?:return \d+;|[\w:]+(?:\([_, ]*\))? => \d+,)$",
    ],
    "3 loops": [r"^\s*(?:while|loop)\b(?! let)"],
    "4 equality, order, copies, conversion": [
        r"^\s*(?:pub )?fn (?:same|equal|less|order|compare|min|max|of|to|from|copy)\w*\s*[<(]",
        r"^\s*(?:pub )?fn \w+_(?:of|at|less)\s*[<(]",
        r"\b(\w+) != \1\b",
        r"(\w+)\[0\](?: as \w+)?, \1\[1\]",
    ],
    "6 a buffer with a place or a length beside it": [
        r"\bout: &mut \[u8\], at: usize",
        r"^\s*out: &mut \[u8\],$",
        r"^\s*(?:pub )?(?:count|length|len|current_index): usize,$",
        r"\b\w+: \[\w+; \w+\], (?:count|len|length)\w*: usize",
        r"\w+: &\[\w+\], \w+: &\[\w+\]",
    ],
    "7 switches": [r"\b\w+: (?:bool|Kind|Way)\b"],
}


def sources(top):
    for path in sorted((top / "crates").glob("*/src/**/*.rt")):
        yield path.relative_to(top), re.sub(r"//[^\n]*", "", path.read_text(encoding="utf-8"))


def functions(top):
    """Each function: its place, its name, its parameters, its clauses and its body."""
    for path, text in sources(top):
        for head in HEAD.finditer(text):
            begin = closed(text, head.end()) if text[head.end()] == "<" else head.end()
            begin = text.index("(", begin)
            end = closed(text, begin)
            clauses = []
            at = end
            while clause := re.compile(r"[^{;]*?\b(requires|ensures)\b[^{]*(?=\{)", re.S).match(text, at):
                at = closed(text, clause.end())
                clauses.append((clause[1], " ".join(text[clause.end() + 1 : at - 1].split())))
            body = re.compile(r"\s*(?:->[^{;]*(?:\[[^\]]*\][^{;]*)?)?", re.S).match(text, at).end()
            if body < len(text) and text[body] == "{":
                place = f"{path}:{text.count(chr(10), 0, head.start()) + 1}"
                yield place, head[1], text[begin:end], clauses, text[body : closed(text, body)]


def shape(text):
    """The text with each name and number by its first place, so that texts alike but for these are equal."""
    places = {}
    return " ".join(
        word if word in KEPT or not re.match(r"\w", word) else places.setdefault(word, f"_{len(places)}")
        for word in WORD.findall(text)
    )


def twins(top):
    """Groups of functions of at least four lines that differ in names and numbers only."""
    groups = defaultdict(list)
    for place, name, parameters, _, body in functions(top):
        if body.count("\n") >= 4:
            groups[shape(parameters + body)].append(f"{place} {name}")
    return [", ".join(group) for group in groups.values() if len(group) > 1]


def shared_facts(top):
    """Facts that three or more functions of a crate require, and three parameters that three or more of them share."""
    facts, together = defaultdict(list), defaultdict(list)
    for place, name, parameters, clauses, _ in functions(top):
        crate = place.split("/")[1]
        for kind, clause in clauses:
            if kind == "requires":
                facts[crate, clause].append(name)
        listed = tuple(re.findall(r"\b\w+: [^,()]+", parameters))
        for i in range(len(listed) - 2):
            together[(crate,) + listed[i : i + 3]].append(name)
    return [
        f"{' | '.join(key)}: {', '.join(names)}"
        for key, names in [*facts.items(), *together.items()]
        if len(names) > 2
    ]


def answers(top):
    """The files of answers."""
    return [str(path.relative_to(top)) for path in sorted((top / "crates").glob("*/proofs/**/Answers.antt"))]


def places(top):
    found = {
        name: [
            f"{path}:{i}: {line.strip()}"
            for path, text in sources(top)
            for i, line in enumerate(text.split("\n"), 1)
            if any(re.search(pattern, line) for pattern in patterns)
        ]
        for name, patterns in LINES.items()
    }
    found["2 twins"] = twins(top)
    found["5 shared facts and parameters"] = shared_facts(top)
    found["8 files of answers"] = answers(top)
    return dict(sorted(found.items()))


def main():
    parser = argparse.ArgumentParser(description=__doc__, formatter_class=argparse.RawDescriptionHelpFormatter)
    parser.add_argument("checkout", nargs="?", type=Path, default=HERE)
    parser.add_argument("--list", action="store_true", help="list each place")
    given = parser.parse_args()
    for name, rows in places(given.checkout).items():
        print(f"{name}: {len(rows)}")
        if given.list:
            print(*("    " + row for row in rows), sep="\n")


if __name__ == "__main__":
    main()
