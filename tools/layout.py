#!/usr/bin/env python3
"""Shows the layout of a profile, an interval, a plan, a move and an axis's ends, and where a file of the project has it
otherwise.

    python3 tools/layout.py

The definitions decide: crates/profile/specs/Layout.antt and Names.antt, crates/planner/specs/Layout.antt,
crates/plan_buffer/specs/Layout.antt and Buffers.antt, crates/block/specs/Blocks.antt, crates/arrival/specs/Axes.antt.
The code of crates/ is proved to follow them. Compared with them are the header for C, the Rust wrapper, the oracle, the
records of families_test, these tools and the sample moves.
"""
import re
import sys
from pathlib import Path

from girnhusk import movefile, plans

TOP = Path(__file__).resolve().parent.parent
# Kinds of names that are stored as numbers, with the definition that numbers them.
NAMES = {
    "DIRECTIONS": "direction_number",
    "LIMITS": "limits_number",
    "CONTROL_SIGNS": "control_signs_number",
    "KINDS": "kind_number",
}
# What the definitions call the parts of an interval and of a plan.
INTERVAL = {"kind_number": "kind", "left_end": "left", "right_end": "right", "profile_numbers": "profile"}
PLAN = {"t_min": "duration", "p_min": "profile", "a": "stretch_a", "b": "stretch_b"}
# What they call places and lengths.
PLACES = {
    "profile_length": "PROFILE_LENGTH",
    "interval_length": "INTERVAL_LENGTH",
    "duration_at": "PLAN_DURATION",
    "profile_at": "PLAN_PROFILE",
    "stretch_a_at": "PLAN_STRETCH_A",
    "stretch_b_at": "PLAN_STRETCH_B",
    "plan_length": "PLAN_LENGTH",
    "move_length": "MOVE_LENGTH",
    "wrong_length": "WRONG_LENGTH",
}
DEFINITIONS = (
    "crates/profile/specs/Layout.antt",
    "crates/planner/specs/Layout.antt",
    "crates/plan_buffer/specs/Layout.antt",
    "crates/plan_buffer/specs/Buffers.antt",
)


def read(path):
    return (TOP / path).read_text(encoding="utf-8")


# ---- sums, places and names


def computed(expressions, known=None):
    """The values of named sums and products of whole numbers, each of which may cite others."""
    values = dict(known or {})

    def value(name):
        if name not in values:
            values[name] = worth(expressions[name])
        return values[name]

    def worth(text):
        text = re.sub(r"[A-Za-z_][\w:]*", lambda word: str(value(word[0])), text.strip())
        if not re.fullmatch(r"[\d+*() ]+", text):
            raise ValueError(f"{text!r} is no sum or product")
        return eval(text)

    return {name: value(name) for name in expressions}


def offsets(kind, parts):
    """Places that follow one another, from the length of each part, and the length of them all."""
    places, at = {}, 0
    for name, length in parts:
        places[f"{kind}_{name.upper().replace(' ', '_')}"] = at
        at += length
    return places | {f"{kind}_LENGTH": at}


def singles(names):
    return [(name, 1) for name in names]


def plain(name):
    """A name without the marks in which languages differ."""
    return re.sub(r"[_ ]", "", name).upper()


def between(text, start, end):
    """What stands between two marks."""
    return text.split(start, 1)[1].split(end, 1)[0]


# ---- the definitions


def body(text, name):
    """The body of a definition in a .antt file."""
    return re.search(rf"^{name} [^\n=]*=\s(.*?)(?=\n\n|\Z)", text, re.M | re.S)[1]


def whole_numbers(text):
    """The definitions of whole numbers in a .antt file."""
    return dict(re.findall(r"^abbrev pub (\w+) : ℕ\n\1 = (.*)$", text, re.M))


def numbered(text, name):
    """The names that a definition numbers, in the order of their numbers."""
    rows = re.findall(rf"^{name} \(?(\w+).*= (\d+)$", text, re.M)
    return [plain(word) for word, _ in sorted(rows, key=lambda row: int(row[1]))]


def defined_profile(layout, buffer, numbers):
    """The parts of a profile with their lengths: its names, then its doubles."""
    parts = singles(re.findall(r"\bq\.(\w+)", body(buffer, "names")))
    doubles = re.findall(r"elements (\w+) q\.(\w+)|\bq\.(\w+) ∷", body(layout, "profile_doubles"))
    return parts + [(array or single, computed({"": length or "1"}, numbers)[""]) for length, array, single in doubles]


def defined_axes(axes):
    """The places of an axis's ends, and how many axes there may be."""
    place = r"(\w+) = at ends \(ends_length \* i(?: \+ (\d))?\)"
    stretches = re.findall(r"(\w+) = record \{(.*?)\}", body(axes, "axis_of"))
    places = [(f"{stretch}_{end}", at) for stretch, ends in stretches for end, at in re.findall(place, ends)]
    ends = offsets("ENDS", singles(name for name, _ in sorted(places, key=lambda place: int(place[1] or 0))))
    numbers = whole_numbers(axes)
    return ends | {"ENDS_LENGTH": int(numbers["ends_length"]), "AXES_MOST": int(numbers["axes_most"])}


def defined():
    """The layout of the definitions, and the names in the order of their numbers."""
    layout, planner, buffer, buffers = map(read, DEFINITIONS)
    numbers = computed(whole_numbers("\n".join((layout, planner, buffer, buffers))))
    profile = offsets("PROFILE", defined_profile(layout, buffer, numbers))
    lengths = {"profile_numbers": profile["PROFILE_LENGTH"]}
    words = re.findall(r"\w+", body(buffer, "ends") + body(buffer, "interval_numbers"))
    parts = [word for word in words if word in INTERVAL]
    interval = offsets("INTERVAL", [(INTERVAL[part], lengths.get(part, 1)) for part in parts])
    lengths["interval_numbers"] = interval["INTERVAL_LENGTH"]
    parts = re.findall(r"(\w*) ?\(?\bb\.(\w+)", body(buffer, "plan_numbers"))
    plan = offsets("PLAN", [(PLAN[part], lengths.get(list_of, 1)) for list_of, part in parts])
    places = re.findall(r"(\w+) = at l (\d+)", body(planner, "move_of"))
    move = offsets("MOVE", singles(name for name, _ in sorted(places, key=lambda place: int(place[1]))))
    names = read("crates/profile/specs/Names.antt") + read("crates/block/specs/Blocks.antt")
    order = {kind: numbered(names, number) for kind, number in NAMES.items()}
    axes = defined_axes(read("crates/arrival/specs/Axes.antt"))
    return profile | interval | plan | move | axes | {"WRONG_LENGTH": numbers["wrong_length"]} | order


# ---- the header for C


def enumerators(text):
    """Each enum of a header: its name, and its enumerators with their values."""
    values = {}
    for name, inside in re.findall(r"\benum\s*(\w*)\s*\{(.*?)\}", re.sub(r"/\*.*?\*/", "", text, flags=re.S), re.S):
        last, found = "-1", {}
        for word, expression in re.findall(r"(\w+)\s*(?:=\s*([^,]+))?", inside):
            last = expression or f"{last} + 1"
            found[word] = values[word] = computed({"": last.replace("-1 + 1", "0")}, values)[""]
            last = str(found[word])
        yield name, found


def of_header(text):
    layout = {}
    for name, found in enumerators(text):
        short = {word.removeprefix("GIRNHUSK_"): value for word, value in found.items()}
        kind = f"{name.removeprefix('girnhusk_').upper().removesuffix('S')}S"
        if kind in NAMES:
            layout[kind] = [plain(word) for word in sorted(short, key=short.get)]
        places = [word for word in short if re.match("(PROFILE|INTERVAL|PLAN|MOVE|ENDS|AXES)_|WRONG_LENGTH", word)]
        layout |= {word: short[word] for word in places}
    return layout


# ---- Rust: the wrapper and the oracle


def constants(text):
    return dict(re.findall(r"\bconst (\w+): (?:usize|u64) = ([^;{]+);", text))


def of_wrapper(raw, wrapper):
    expressions = constants(raw)
    for block in re.findall(r"^places! \{ 0;(.*?)^\}", raw, re.M | re.S):
        at = "0"
        for name, count in re.findall(r"^\s*(\w+)(?:: (\w+),)?$", block, re.M):
            expressions[name], at = at, f"{name} + {count}"
    layout = computed(expressions)
    del layout["PHASES"], layout["ROWS"]
    move = re.findall(r"self\.(\w+)", between(wrapper, "pub fn numbers(&self) -> [f64; MOVE_LENGTH]", "}\n"))
    layout |= offsets("MOVE", singles(move)) | {"MOVE_LENGTH": layout["MOVE_LENGTH"]}
    readers = wrapper[wrapper.index("fn interval_at"):]
    for kind, type_name in zip(NAMES, ("Direction", "Limits", "ControlSigns", "Stretch")):
        layout[kind] = [plain(name) for name in re.findall(rf"\b{type_name}::(\w+)", readers)]
    return layout


def of_oracle(answers, buffers):
    numbers = constants(answers)
    shared = computed({name: numbers[name] for name in ("MOVE_LENGTH", "PHASES", "ROWS")})
    names = re.findall(r'\("([^"]+)", &\w+', between(answers, "pub const fn names", "\n    }"))
    arrays = dict(re.findall(r"pub (\w+): \[f64; (\w+)\]", answers))
    doubles = re.findall(r'\("(\w+)", ', between(answers, "pub const fn parts", "\n    }"))
    profile = offsets("PROFILE", singles(names) + [(name, shared.get(arrays.get(name), 1)) for name in doubles])
    shared |= {"Profile::NAMES": len(names), "Profile::DOUBLES": profile["PROFILE_LENGTH"] - len(names)}
    move = re.findall(r"&mut self\.(?:limits\.)?(\w+)", between(answers, "fn places", "\n    }"))
    layout = computed(constants(buffers), shared) | profile | offsets("MOVE", singles(move))
    for kind in ("DIRECTIONS", "LIMITS", "CONTROL_SIGNS"):
        layout[kind] = [plain(name) for name in re.findall(r'"(\w+)"', between(answers, f"pub const {kind}", ";\n"))]
    return layout | {"MOVE_LENGTH": shared["MOVE_LENGTH"]}


# ---- these tools and the samples


def of_tools():
    profile = singles(("direction", "limits", "control_signs")) + list(plans.ARRAYS) + singles(plans.SCALARS)
    layout = offsets("PROFILE", profile) | offsets("MOVE", singles(movefile.COLUMNS))
    return layout | {kind: [plain(name) for name in getattr(plans, kind)] for kind in NAMES}


def of_samples(text):
    heading = next(line for line in text.split("\n") if re.match(r"#\s+p0\s+v0\s+a0\s+pf", line))
    return offsets("MOVE", singles(heading[1:].split()))


# ---- what differs


def differences(right, found, whole=False):
    """Where a layout isn't the right one; a whole one has all of it."""
    names = sorted(set(found) | (set(right) if whole else set()))
    other = [name for name in names if found.get(name) != right.get(name)]
    return [f"{name} is {found.get(name)}, not {right.get(name)}" for name in other]


def of_numbers():
    """The places and lengths that the definitions have as numbers."""
    numbers = computed(whole_numbers("\n".join(map(read, DEFINITIONS))))
    return {place: numbers[name] for name, place in PLACES.items()}


def of_family_records(text):
    """A move in the records of families_test, whose places are bytes."""
    return {f"MOVE_{name.upper()}": int(place) / 8 for name, place in re.findall(r"(\w+) = double_at b (\d+)", text)}


def compared():
    """Each place that is compared, with what it has otherwise than the definitions."""
    right = defined()
    yield "crates: places and lengths", differences(right, of_numbers())
    header = right | {"PLAN_SHORT": right["WRONG_LENGTH"]}
    yield "bindings/c/girnhusk.h", differences(header, of_header(read("bindings/c/girnhusk.h")), whole=True)
    raw, wrapper = read("bindings/rust/src/raw.rs"), read("bindings/rust/src/lib.rs")
    yield "bindings/rust/src", differences(right, of_wrapper(raw, wrapper), whole=True)
    answers, buffers = read("oracle/answers/src/lib.rs"), read("oracle/programs/src/buffers.rs")
    yield "oracle", differences(right, of_oracle(answers, buffers))
    records = read("crates/families_test/specs/Records.antt")
    yield "crates/families_test", differences(right, of_family_records(records))
    yield "tools/girnhusk", differences(right, of_tools())
    yield "docs/sample-moves.txt", differences(right, of_samples(read("docs/sample-moves.txt")))


def main():
    for name, value in defined().items():
        print(f"{name:24}", " ".join(value) if isinstance(value, list) else value)
    faults = [f"{place}: {fault}" for place, found in compared() for fault in found]
    print("\n".join(faults) if faults else "the same everywhere")
    return 1 if faults else 0


if __name__ == "__main__":
    sys.exit(main())
