#!/usr/bin/env python3
"""Moves for people: text to records, plans to tables and pictures, and when several axes can all arrive.

  python3 tools/moves.py records moves.txt | crates/plan_full/out/plan_full > plans.txt
  python3 tools/moves.py table plans.txt
  python3 tools/moves.py picture plans.txt --record 2 --moves moves.txt -o move2.svg
  python3 tools/moves.py arrival plans.txt --records 7,15 --picture both.svg

plan_full is the planner's program that prints every number of each plan. Python 3.9 or later, nothing else.
"""
from __future__ import annotations

import argparse
import os
import sys

from girnhusk.arrival import MALFORMED, arrival, arrival_words
from girnhusk.arrival_picture import arrival_picture
from girnhusk.faults import BadInput, bad_file
from girnhusk.movefile import COLUMNS, Move, read_moves, read_text, to_record
from girnhusk.picture import picture
from girnhusk.plans import MEANINGS, Answer, Plan, read_answers
from girnhusk.table import csv_text, table

RECORDS_HELP = f"""Turn a text of moves into records for the planner.

A line has 13 numbers, all apart by blanks or all by commas, in this order:
  {' '.join(COLUMNS)}
Or the first line names the 13 columns, in any order, and each further line follows it; any other column is an
error. Empty lines, and what follows a #, are skipped. Numbers are decimal (0.5, 1e-3), hexadecimal (0x1.8p3), inf
or nan. Decimals have a point: a line that has blanks between numbers and a comma inside one (100,5), or is mixed
otherwise, is refused. In a line of commas alone every comma separates. Every bad line is reported as FILE:LINE, and
then nothing is written."""

ARRIVAL_HELP = """When several axes can all arrive: the earliest duration that none of the plans named blocks.

The records named are the axes of a move, counted from 0 in the order given, 1 to 8 of them. Shown are the time, and the
lowest axis that has it as its duration or as the right end of a blocked stretch; or why there is no such time, by
document 02's number 9 or 10. This is a script's answer, and nothing about it is proved: programs call the archive's
girnhusk_arrival."""


def read_input(name: str) -> bytes:
    """A file's bytes; - is the standard input."""
    if name == "-":
        return sys.stdin.buffer.read()
    with open(name, "rb") as file:
        return file.read()


def write_output(name: str, data: bytes) -> None:
    """Writes a file once all of it is known; - is the standard output."""
    if name == "-":
        sys.stdout.buffer.write(data)
        sys.stdout.buffer.flush()
    else:
        with open(name, "wb") as file:
            file.write(data)


def records(arguments: argparse.Namespace) -> None:
    moves = read_text(arguments.file, read_input(arguments.file))
    if not moves:
        print(f"{arguments.file}: no moves in it", file=sys.stderr)
    if arguments.output == "-" and sys.stdout.isatty():
        raise bad_file("standard output", "records are not for a terminal: use -o, or pipe them to plan_full")
    write_output(arguments.output, b"".join(to_record(move) for move in moves))


def show_table(arguments: argparse.Namespace) -> None:
    answers = read_answers(arguments.file, read_input(arguments.file))
    show = csv_text if arguments.csv else table
    write_output("-", show(answers).encode())


def plan_of(name: str, answers: list[Answer], record: int, lacks: str) -> Plan:
    """The plan with that number; of a refused one it is said what it lacks."""
    for answer in answers:
        if answer.number == record:
            if isinstance(answer, Plan):
                return answer
            raise bad_file(name, f"record {record} was refused, so it has no {lacks}: {answer.meaning()}")
    raise bad_file(name, f"there is no record {record} among {len(answers)}")


def move_of(name: str, moves: list[Move], plan: Plan) -> Move:
    """The plan's move; a move with another start, target or durations is not its own."""
    if plan.number > len(moves):
        raise bad_file(name, f"there is no move {plan.number} among {len(moves)}")
    move, profile = moves[plan.number - 1], plan.profile
    planned = (profile.p[0], profile.v[0], profile.a[0], *profile[-5:])
    if planned != (*move[:6], *move[-2:]):
        raise bad_file(name, f"move {plan.number} is not the one that was planned: start, target or durations differ")
    return move


def draw(arguments: argparse.Namespace) -> None:
    if arguments.file == arguments.moves == "-":
        raise bad_file("-", "plans and moves cannot both come from the standard input")
    answers = read_answers(arguments.file, read_input(arguments.file))
    plan = plan_of(arguments.file, answers, arguments.record, "picture")
    move = move_of(arguments.moves, read_moves(arguments.moves, read_input(arguments.moves)), plan)
    try:
        drawing = picture(plan, move, arguments.unit)
    except OverflowError:
        raise bad_file(arguments.file, f"the numbers of record {plan.number} are too large to draw") from None
    write_output(arguments.output, drawing.encode())


def show_arrival(arguments: argparse.Namespace) -> None:
    answers = read_answers(arguments.file, read_input(arguments.file))
    plans = [plan_of(arguments.file, answers, record, "arrival time") for record in arguments.records]
    answer = arrival(plans)
    if arguments.picture is not None:
        if answer == MALFORMED:
            raise bad_file(arguments.file, f"refused {answer}, so there is no picture: {MEANINGS[answer]}")
        try:
            drawing = arrival_picture(plans, answer)
        except OverflowError:
            raise bad_file(arguments.file, "the numbers of these records are too large to draw") from None
        write_output(arguments.picture, drawing.encode())
    if arguments.picture != "-":
        write_output("-", arrival_words(plans, answer).encode())


def record_numbers(text: str) -> list[int]:
    try:
        return [int(word) for word in text.split(",")]
    except ValueError:
        raise argparse.ArgumentTypeError(f"{text!r} is not a list of numbers such as 7,15") from None


def parser() -> argparse.ArgumentParser:
    """The command line."""
    raw = argparse.RawDescriptionHelpFormatter
    whole = argparse.ArgumentParser(prog="moves.py", description=__doc__, formatter_class=raw)
    commands = whole.add_subparsers(metavar="COMMAND", required=True)

    command = commands.add_parser(
        "records", help="turn a text of moves into records", description=RECORDS_HELP, formatter_class=raw)
    command.add_argument("file", metavar="FILE", help="the text; - for standard input")
    command.add_argument("-o", dest="output", metavar="OUT", default="-", help="the records (default: standard output)")
    command.set_defaults(run=records)

    command = commands.add_parser(
        "table", help="show plans as a table", description="Show plan_full's output as a table.")
    command.add_argument("file", metavar="FILE", nargs="?", default="-", help="the plans; standard input if absent")
    command.add_argument("--csv", action="store_true", help="every number as CSV; each reads back to the same double")
    command.set_defaults(run=show_table)

    command = commands.add_parser(
        "picture", help="draw one plan as SVG",
        description="Draw one plan: position, velocity, acceleration and jerk over time, and its blocked durations.")
    command.add_argument("file", metavar="FILE", nargs="?", default="-", help="the plans; standard input if absent")
    command.add_argument("--record", metavar="N", type=int, required=True, help="the number of the record, from 1")
    command.add_argument("--moves", metavar="MOVES", required=True, help="the moves, for their limits: text or records")
    command.add_argument("--unit", default="u", help="the unit of position, such as mm (default: u)")
    command.add_argument("-o", dest="output", metavar="OUT", default="-", help="the SVG; standard output if absent")
    command.set_defaults(run=draw)

    command = commands.add_parser(
        "arrival", help="when several axes can all arrive", description=ARRIVAL_HELP, formatter_class=raw)
    command.add_argument("file", metavar="FILE", nargs="?", default="-", help="the plans; standard input if absent")
    command.add_argument("--records", metavar="N,N", type=record_numbers, required=True,
                         help="the numbers of the records, from 1, apart by commas")
    command.add_argument("--picture", metavar="OUT", help="also draw the axes' durations as SVG; - for that alone")
    command.set_defaults(run=show_arrival)
    return whole


def main(words: list[str] | None = None) -> int:
    """Runs one command; 0 done, 1 a bad input or file, 2 a wrong command line."""
    arguments = parser().parse_args(words)
    try:
        arguments.run(arguments)
    except BadInput as error:
        print(error, file=sys.stderr)
        return 1
    except BrokenPipeError:
        os.dup2(os.open(os.devnull, os.O_WRONLY), sys.stdout.fileno())  # the reader has seen enough
        return 1
    except OSError as error:
        print(f"{error.filename or 'moves.py'}: {error.strerror}", file=sys.stderr)
        return 1
    return 0


if __name__ == "__main__":
    sys.exit(main())
