"""The stored moves of the programs `plan_moves` and `plan_full`: some 2,000 and some 900 of the same.

They are: chosen ones; from DRAWN moves of every kind the first of each class (verdict, count of accepted profiles, kinds of the stretches, direction and
limits, phases of the shortest profile that take time); and the first moves of every kind. The script stops if a verdict, count or name that must occur doesn't.
"""
import math
import struct
import sys

from programs import run

KINDS = {"ordinary": 201, "rest": 202, "zero": 203, "wild": 204, "scale": 205, "edge": 206, "blocked": 207, "neighbours": 208}  # with their seeds
DRAWN = 40_000
OF_A_CLASS = {"wild": 4}  # how many, where not 1: the plans of wild moves are of few classes
FIRST = {"plan_moves": 160, "plan_full": 20}  # how many of every kind besides, before doubles are dropped
MOVE_LENGTH = 13
HEAD = struct.pack(">HB", 1 + 8 * MOVE_LENGTH, 1)  # of a record: the length of what follows it, and the version
RECORD = len(HEAD) + 8 * MOVE_LENGTH
STRETCHES = (b"nothing", b"between", b"from")
NAN, INFINITY = math.nan, math.inf
TINY = 5e-324
LONG = 1e12
LONGER = math.nextafter(1e12, INFINITY)


def record(numbers):
    return HEAD + struct.pack(f">{MOVE_LENGTH}d", *numbers)


def simple(p0, v0, a0, pf, vf, af, j_max):
    """A move with v limits 1, -1, a limits 1, -1, durations 0."""
    return [p0, v0, a0, pf, vf, af, 1.0, -1.0, 1.0, -1.0, j_max, 0.0, 0.0]


FOUR = [simple(0, 0, 0, 0, 0, 0, 1), simple(0, 0, 0, 4, 0, 0, 1), simple(0, 1, 0, 3, 1, 0, 0), simple(0, 0, 0, 1, 0, 0, 0)]


def with_numbers(*replaced):
    """Document 01's second move with some numbers replaced."""
    numbers = list(FOUR[1])
    for place, value in replaced:
        numbers[place] = value
    return numbers


def chosen():
    """Moves on the edges of the refusals, and moves that a board's own functions plan otherwise."""
    moves = FOUR + [simple(0, 0, 0, -4, 0, 0, 1)]
    for place in range(MOVE_LENGTH):
        moves += [with_numbers((place, value)) for value in (NAN, INFINITY, -INFINITY)]
        moves.append(with_numbers((6, -1.0), (11, -1.0), (place, NAN)))
    for place, value in ((6, -TINY), (7, TINY), (8, -TINY), (9, TINY), (10, -TINY)):
        moves += [with_numbers((place, value)), with_numbers((11, -1.0), (place, value)), with_numbers((place, -0.0)), with_numbers((place, 0.0))]
    for place in (11, 12):
        moves += [with_numbers((place, value)) for value in (-TINY, -1.0, LONGER, LONG, -0.0, TINY)]
    moves.append(with_numbers((11, LONG), (12, LONG)))
    next_of_one = math.nextafter(1.0, 2.0)
    moves.append([1.0, 0.5, -1.0, next_of_one, -0.5, -1.0, 1.0, -2.0, 2.0, -2.0, 1.0, 0.0, 0.0])  # refusal 5
    moves.append([1.0, 1.0, -1.0, 1.0, -1.0, -1.0, 0.5, -0.5, 1.5, -3.0, 1.5, 0.0, 0.0])  # another cube root refuses it
    return [record(numbers) for numbers in moves]


def shape(line, verdict):
    """The class of an answer, from `plan_full`'s line and `survey`'s verdict."""
    fields = line.split(b" ")
    if fields[1] == b"refused":
        return verdict
    times = fields[6:13]
    stretches = [field for field in fields if field in STRETCHES]
    phases = bytes(ord("0" if time in (b"0" * 16, b"8" + b"0" * 15) else "1") for time in times)
    return b" ".join([verdict, *stretches, phases])


def drawn(kind):
    """Moves of a kind with their classes."""
    records = run("moves", str(KINDS[kind]), kind, str(DRAWN))
    verdicts = run("survey", "--each", given=records).splitlines()
    lines = run("plan_full", given=records).splitlines()
    moves = [records[i : i + RECORD] for i in range(0, len(records), RECORD)]
    return [(move, shape(line, verdict)) for move, line, verdict in zip(moves, lines, verdicts, strict=True)]


def selection():
    """The records of each program: chosen moves, then by kind the first of each class and the first ones."""
    samples = {program: chosen() for program in FIRST}
    for kind in KINDS:
        moves, met, firsts = drawn(kind), {}, []
        for move, kind_of_answer in moves:
            met[kind_of_answer] = met.get(kind_of_answer, 0) + 1
            if met[kind_of_answer] <= OF_A_CLASS.get(kind, 1):
                firsts.append(move)
        for program, count in FIRST.items():
            samples[program] += firsts + [move for move, _ in moves[:count]]
    return {program: list(dict.fromkeys(sample)) for program, sample in samples.items()}


def demand_coverage(program, records):
    """Stops unless everything that plans and refusals can be occurs."""
    met = b"\n".join(run("survey", "--each", given=records).splitlines()) + b"\n"
    wanted = [b"refused %d\n" % number for number in range(1, 6)]
    wanted += [b"ok, %d accepted" % count for count in range(6)]
    wanted += [b", %d stretches, " % count for count in range(3)]
    wanted += [b"%s %s\n" % (way, name) for way in (b"UP", b"DOWN") for name in (b"Vel", b"Acc0", b"Acc1", b"Acc0Acc1", b"Acc1Vel", b"None")]
    missing = [word for word in wanted if word not in met]
    kinds = run("plan_full", given=records)
    missing += [word for word in STRETCHES if b" %s " % word not in kinds]
    if missing:
        sys.exit(f"{program}: {missing} do not occur")
