#!/usr/bin/env python3
"""Counts what a landing note publishes of a checkout: crates, functions, edits, long lines and paths, layout numbers.

    python3 tools/counts.py [CHECKOUT] [--list]

CHECKOUT is the top folder of a clone, by default this one, so that two can be compared. `--list` shows each bare layout
number with its place.
"""
import argparse
import re
from pathlib import Path

from unstated import functions

HERE = Path(__file__).resolve().parent.parent
# Places and lengths of a profile, an interval, a plan, a record and their lines. The definitions compute them from the
# lengths of their parts, so none of them need stand anywhere.
LAYOUT = (53, 54, 56, 107, 110, 166, 872, 914, 2720, 2741)
# In these crates 53, 54, 56, 107 and 110 are widths of significands.
WIDTHS = {
    "algebraic", "angle", "bits", "cbrt", "doubles", "elementary", "midpoints", "sqrt", "words",
    "third_angle_cosine", "third_angle_pair", "third_angle_sine",
    "cosine", "estimates", "sine", "third_angle",  # as they were called
}
PATH = re.compile(r"\.before(?:\s*\.before)*")
NUMBER = re.compile(rf"(?<![\w.·-])({'|'.join(map(str, LAYOUT))})(?:[iu](?:8|16|32|64|128|size))?(?![\w·-]|\.\d)")
# A byte's place in a record of a test program, which has a layout of its own.
OWN_PLACE = re.compile(r"(double_at b|doubleAt b|get_or b|getD b|doubles?_at\(bytes,) \d+|get_or bytes.now \d+|\b(bytes|of)\[\d+\]")
COMMENT = {".rt": re.compile(r"//[^\n]*"), ".antt": re.compile(r"(?<!\S)--(?!\S)[^\n]*")}


def without_comments(text, suffix):
    return COMMENT[suffix].sub("", text)


def long_lines(text, limit):
    return sum(len(line) > limit for line in text.split("\n"))


def runs(text, least):
    """How many paths have at least so many `.before` in a row."""
    return sum(path[0].count(".before") >= least for path in PATH.finditer(text))


def layout_numbers(text, suffix):
    """The layout numbers outside comments, each with its line."""
    lines = enumerate(OWN_PLACE.sub("", without_comments(text, suffix)).split("\n"), 1)
    return [(line, number[0]) for line, content in lines for number in NUMBER.finditer(content)]


def sources(top):
    """Every .rt and .antt file of src/, specs/ and proofs/ with its path from the top and its text."""
    paths = (path for folder in ("src", "specs", "proofs") for path in top.glob(f"crates/*/{folder}/**/*"))
    for path in sorted(paths):
        if path.suffix in COMMENT and path.is_file():
            yield path.relative_to(top), path.read_text(encoding="utf-8")


def may_have_bare_numbers(path):
    """Code and contracts: .rt files and definitions, but where the numbers mean something else."""
    return (path.suffix == ".rt" or path.parts[2] == "specs") and path.parts[1] not in WIDTHS


def bare_numbers(files):
    stated = [(path, text) for path, text in files if may_have_bare_numbers(path)]
    return [(path, line, number) for path, text in stated for line, number in layout_numbers(text, path.suffix)]


def crates(top):
    lines = (top / "crates.txt").read_text(encoding="utf-8").split("\n")
    return sum(bool(re.match(r"\w+[^#:]*:", line)) for line in lines)


def counts(top):
    """What is counted, and how many there are."""
    files = list(sources(top))
    code = [text for path, text in files if path.suffix == ".rt"]
    laws = [text for path, text in files if path.suffix == ".antt"]
    both = code + laws
    return [
        ("crates", crates(top)),
        ("functions", sum(len(list(functions(text))) for text in code)),
        ("must-fail edits", len(list(top.glob("crates/*/must-fail/*.edit")))),
        ("lines in .rt", sum(text.count("\n") for text in code)),
        ("lines in .antt", sum(text.count("\n") for text in laws)),
        ("lines over 200 characters", sum(long_lines(text, 200) for text in both)),
        ("lines over 120 characters", sum(long_lines(text, 120) for text in both)),
        ("runs of five or more .before", sum(runs(text, 5) for text in both)),
        ("runs of ten or more .before", sum(runs(text, 10) for text in both)),
        ("bare layout numbers", len(bare_numbers(files))),
    ]


def main():
    words = argparse.ArgumentParser(description=__doc__.split("\n")[0])
    words.add_argument("checkout", nargs="?", type=Path, default=HERE)
    words.add_argument("--list", action="store_true", help="show each bare layout number with its place")
    chosen = words.parse_args()
    for name, count in counts(chosen.checkout):
        print(f"{count:7,}  {name}")
    if chosen.list:
        for path, line, number in bare_numbers(sources(chosen.checkout)):
            print(f"{path}:{line}: {number}")


if __name__ == "__main__":
    main()
