#!/usr/bin/env python3
"""Lists the functions of crates/ that state nothing of their result: those without an `ensures`.

    python3 tools/unstated.py

A function of an `impl` of a trait has the clauses of the trait, which is listed itself where it is ours. Entry 28 of
docs/DECISIONS.md names the functions and says why; the last line counts.
"""
import re
import sys
from pathlib import Path

CRATES = Path(__file__).resolve().parent.parent / "crates"
CLAUSE = re.compile(r"\s*(requires|ensures|where|\{|;|->)")
RESULT = re.compile(r"(?:[^{;\[]|\[[^\]]*\])*?(?=\s*(?:\brequires\b|\bensures\b|\bwhere\b|\{|;))", re.S)
OF_TRAIT = re.compile(r"^\s*impl\b[^{}]*\bfor\b[^{}]*(?=\{)", re.M)


def closed(text, at):
    """The place behind the bracket that closes the one at `at`."""
    close = {"(": ")", "{": "}", "<": ">"}[text[at]]
    depth = 0
    for i in range(at, len(text)):
        depth += (text[i] == text[at]) - (text[i] == close and text[i - 1 : i + 1] != "->")
        if depth == 0:
            return i + 1
    raise ValueError(f"unclosed {text[at]}")


def states_result(text, at):
    """Whether the function whose parameters begin at `at` has an `ensures` before its body."""
    at = closed(text, at)
    while True:
        clause = CLAUSE.match(text, at)
        if clause[1] in ("{", ";"):
            return False
        if clause[1] == "ensures":
            return True
        if clause[1] == "requires":
            at = closed(text, text.index("{", clause.end()))
        else:
            at = RESULT.match(text, clause.end()).end()


def functions(text):
    """Each function's name, and whether it states its result."""
    text = re.sub(r"//[^\n]*", "", text)
    of_trait = [range(head.end(), closed(text, head.end())) for head in OF_TRAIT.finditer(text)]
    for head in re.finditer(r"\bfn\s+(\w+)\s*(?=[<(])", text):
        at = closed(text, head.end()) if text[head.end()] == "<" else head.end()
        yield head[1], any(head.start() in span for span in of_trait) or states_result(text, text.index("(", at))


def main():
    total = unstated = 0
    for source in sorted(CRATES.glob("*/src/**/*.rt")):
        for name, stated in functions(source.read_text(encoding="utf-8")):
            total += 1
            if not stated:
                unstated += 1
                print(source.relative_to(CRATES.parent), name)
    print(f"{total} functions, {unstated} without ensures")


if __name__ == "__main__":
    sys.exit(main())
