#!/usr/bin/env python3
"""Makes every stored input and output of the test programs anew, crates/*/stdin and stdout, and says what changed.

    python3 oracle/tools/make_stored.py            # writes the files that differ
    python3 oracle/tools/make_stored.py --check    # writes nothing; ends with 1 if a file differs

It builds the oracle first. Inputs are drawn with the seeds below, chosen, or pinned; outputs are the oracle's, but for
the elementary functions', which tools/elementary_vectors.py of the project computes by itself. A pin is a record that
tells a wrong definition apart: a line of pins/NAME.txt, in hexadecimal digits, and behind `#` what it is for.
"""
import argparse
import os
import subprocess
import sys
from pathlib import Path

import broken_records
import samples
from programs import run

ORACLE = Path(__file__).resolve().parent.parent
PROJECT = ORACLE.parent
TOOLS = PROJECT / "tools"
NAMES = ("stdin", "stdout")

sys.path.append(os.fspath(TOOLS))
import elementary_vectors


def drawn(kind, seed, count):
    return run("inputs", str(seed), kind, str(count))


def pinned(name):
    """The records of a file of pins, one a line."""
    path = ORACLE / "pins" / f"{name}.txt"
    if not path.exists():
        return []
    texts = [line.split("#")[0] for line in path.read_text(encoding="utf-8").splitlines()]
    return [bytes.fromhex(text) for text in texts if text.strip()]


def pinned_moves():
    return [samples.HEAD + numbers for numbers in pinned("moves")]


def thresholds():
    script = [sys.executable, os.fspath(TOOLS / "threshold_quartics.py")]
    return subprocess.run(script, stdout=subprocess.PIPE, stderr=subprocess.DEVNULL, check=True).stdout


def cut(record_size, records):
    """Records, and the beginning of one more."""
    return records + records[: record_size - 1]


def inputs():
    """Each crate with a stored input, the oracle's program that answers it, and the input."""
    for program, sample in samples.selection().items():
        records = sample + (pinned_moves() if program == "plan_full" else [])
        samples.demand_coverage(program, b"".join(sample))
        yield program, program, b"".join(records) + sample[1][:50]  # ends inside a record
    yield "roots_test", "quartics", drawn("quartics", 4, 6000) + thresholds() + b"".join(pinned("quartics"))
    yield "profile_test", "checks", drawn("checks", 5, 2400) + b"".join(pinned("checks"))
    yield "families_test", "families", drawn("families", 6, 9000) + b"".join(pinned("families"))
    yield "block_test", "blocks", cut(225, drawn("blocks", 7, 3000) + b"".join(pinned("blocks")))
    yield "buffer_test", "buffers", cut(138, drawn("buffers", 8, 600) + b"".join(pinned("buffers")))
    rests = broken_records.rests_of_inputs() + drawn("replies", 9, 200)
    yield "replies_test", "replies", rests + b"\x6b" + broken_records.TWO[:-1]
    arrivals = drawn("arrivals", 10, 3000) + b"".join(pinned("arrivals"))
    yield "arrival_test", "arrivals", arrivals + pinned("arrivals")[-1][:-1]


def stored():
    """Each crate with its input and output."""
    for crate, program, given in inputs():
        yield crate, given, run(program, given=given)
    yield "elementary_test", *elementary_vectors.stored()


def differing(crate, contents, write):
    """The files of a crate that are not as made; they are written if wanted."""
    changed = []
    for name, content in zip(NAMES, contents):
        path = PROJECT / "crates" / crate / name
        if path.is_file() and path.read_bytes() == content:
            continue
        changed.append(path)
        if write:
            path.write_bytes(content)
    return changed


def build():
    """Builds the oracle's programs; cargo sees by itself whether it must."""
    try:
        subprocess.run(["cargo", "build", "--release", "--offline", "--quiet"], cwd=ORACLE, check=True)
    except FileNotFoundError:
        sys.exit("make_stored: the oracle is built with cargo, which is missing")
    except subprocess.CalledProcessError:
        sys.exit("make_stored: the oracle could not be built")


def make(write):
    """Makes all files and shows each; the paths of those that differ, and of stored files that are not made here."""
    made, changed = set(), []
    for crate, *contents in stored():
        differ = differing(crate, contents, write)
        changed += differ
        made |= {PROJECT / "crates" / crate / name for name in NAMES}
        verdict = f"{' and '.join(path.name for path in differ)} changed" if differ else "unchanged"
        print(f"{crate}: {len(contents[0]):,} bytes in, {len(contents[1]):,} out, {verdict}", flush=True)
    unmade = {path for name in NAMES for path in PROJECT.glob(f"crates/*/{name}")} - made
    return len(made), changed, sorted(unmade)


def main():
    words = argparse.ArgumentParser(description=__doc__.split("\n")[0])
    words.add_argument("--check", action="store_true", help="write nothing, and end with 1 if a file differs")
    check = words.parse_args().check
    build()
    count, changed, unmade = make(write=not check)
    for path in unmade:
        print(f"not made here: {path.relative_to(PROJECT)}")
    names = ", ".join(os.fspath(path.relative_to(PROJECT)) for path in changed)
    print(f"{count} files made, {f'{len(changed)} changed: {names}' if changed else 'nothing changed'}")
    sys.exit(1 if unmade or (check and changed) else 0)


if __name__ == "__main__":
    main()
