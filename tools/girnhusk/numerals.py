"""Doubles as people like to read them."""
from __future__ import annotations


def plain(number: float) -> str:
    """The decimal that reads back to the same double, without a trailing .0."""
    return repr(number).removesuffix(".0")


def short(number: float) -> str:
    """In full where that is short, else six significant digits."""
    full = plain(number)
    if len(full) > 12:
        full = f"{number:.6g}"
    digits, sign, exponent = full.partition("e")
    return f"{digits}e{int(exponent)}" if sign else full


def short_ends(left: float, right: float) -> tuple[str, str]:
    """Both ends short, unless ends that differ would look equal."""
    ends = short(left), short(right)
    return (plain(left), plain(right)) if ends[0] == ends[1] and left != right else ends
