"""Moves as a person writes them, and as document 01's records."""
from __future__ import annotations

import io
import re
import struct
from typing import NamedTuple, Sequence

from .faults import BadInput, Fault, bad_file


class Move(NamedTuple):
    """The 13 numbers of a move, in the order of a record."""

    p0: float
    v0: float
    a0: float
    pf: float
    vf: float
    af: float
    v_max: float
    v_min: float
    a_max: float
    a_min: float
    j_max: float
    brake: float
    accel: float


COLUMNS = Move._fields
LENGTH = 105  # bytes after the length itself: the version and 13 doubles
VERSION = 1
RECORD = struct.Struct(">HB13d")
HEAD = struct.pack(">HB", LENGTH, VERSION)
HEXADECIMAL = re.compile(r"[+-]?0[xX]")
MIXED = "blanks and commas are mixed: separate all numbers by blanks or all by commas, and write decimals with a point"
SEMICOLON = "a semicolon separates nothing: separate numbers by blanks or by commas, and write decimals with a point"


def number(field: str) -> float:
    """A double as Python reads it; ValueError says what is wrong."""
    if not field:
        raise ValueError("is empty")
    try:
        return float.fromhex(field) if HEXADECIMAL.match(field) else float(field)
    except ValueError:
        raise ValueError(f"{field!r} is not a number") from None
    except OverflowError:
        raise ValueError(f"{field!r} is too large for a double") from None


def is_number(field: str) -> bool:
    try:
        number(field)
    except ValueError:
        return False
    return True


def is_mixed(content: str) -> bool:
    """Whether blanks and commas both separate, or a comma among blanks may belong to a decimal."""
    if "," not in content or not re.search(r"\s", content):
        return False
    return bool(re.search(r"[^\s,]\s+[^\s,]", content) or re.search(r"\S,\S", content))


def fields_of(line: str) -> list[str]:
    """The fields before any comment; a field may stand in double quotes. ValueError if what separates is unclear."""
    content = line.split("#", 1)[0].strip()
    if not content:
        return []
    if ";" in content:
        raise ValueError(SEMICOLON)
    if is_mixed(content):
        raise ValueError(MIXED)
    fields = [field.strip() for field in content.split(",")] if "," in content else content.split()
    return [field[1:-1] if re.fullmatch('".*"', field) else field for field in fields]


def is_header(fields: Sequence[str]) -> bool:
    """Whether a first line names columns: it has one of their names, or no number at all."""
    return any(field in COLUMNS for field in fields) or not any(is_number(field) for field in fields)


def header_faults(names: Sequence[str]) -> list[str]:
    """What keeps a header from naming each of the 13 columns once."""
    faults = [f"unknown column {name!r}" for name in dict.fromkeys(names) if name not in COLUMNS]
    faults += [f"column {name!r} stands there {names.count(name)} times" for name in COLUMNS if names.count(name) > 1]
    faults += [f"missing column {name!r}" for name in COLUMNS if name not in names]
    return faults


def read_row(fields: Sequence[str], columns: Sequence[str]) -> tuple[list[float], list[str]]:
    """The numbers of a row, and what is wrong with it."""
    faults, names = [], list(columns)
    if len(fields) != len(columns):
        few = "few" if len(fields) < len(columns) else "many"
        faults.append(f"too {few} numbers: {len(fields)} instead of {len(columns)}")
        names = [f"number {place}" for place in range(1, len(fields) + 1)]
    values = []
    for name, field in zip(names, fields):
        try:
            values.append(number(field))
        except ValueError as error:
            faults.append(f"{name} {error}" if not field else f"{name}: {error}")
    return values, faults


def read_text(name: str, data: bytes) -> list[Move]:
    """The moves of a text: rows of 13 numbers, or a header and rows in its order."""
    if b"\0" in data:
        raise bad_file(name, "holds binary data, not text (UTF-8 is wanted)")
    text = io.StringIO(data.decode("utf-8-sig", errors="replace"), newline=None)
    columns: Sequence[str] = ()
    moves: list[Move] = []
    faults: list[Fault] = []
    for line, content in enumerate(text, 1):
        try:
            fields = fields_of(content)
        except ValueError as error:
            faults.append(Fault(line, str(error)))
            continue
        if not fields:
            continue
        if not columns and is_header(fields):
            columns, wrong = fields, header_faults(fields)
        else:
            columns = columns or COLUMNS
            values, wrong = read_row(fields, columns)
            if not wrong and not faults:
                moves.append(Move(**dict(zip(columns, values))))
        if wrong:
            faults.append(Fault(line, "; ".join(wrong)))
    if faults:
        raise BadInput(name, faults)
    return moves


def to_record(move: Move) -> bytes:
    return RECORD.pack(LENGTH, VERSION, *move)


def read_records(name: str, data: bytes) -> list[Move]:
    """The moves of a file of records."""
    moves = []
    for start in range(0, len(data), RECORD.size):
        record = data[start:start + RECORD.size]
        if len(record) < RECORD.size or not record.startswith(HEAD):
            raise bad_file(name, f"record {len(moves) + 1} is cut short, or its length or version is wrong")
        moves.append(Move(*RECORD.unpack(record)[2:]))
    return moves


def read_moves(name: str, data: bytes) -> list[Move]:
    """The moves of a file of records or of a text, told apart by the first bytes."""
    return read_records(name, data) if data.startswith(HEAD) else read_text(name, data)
