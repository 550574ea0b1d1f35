"""What is wrong with an input, and where."""
from __future__ import annotations

from typing import NamedTuple


class Fault(NamedTuple):
    """One thing wrong; line 0 means the file as a whole."""

    line: int
    what: str


class BadInput(Exception):
    """An input that cannot be used, with every fault found in it."""

    def __init__(self, name: str, faults: list[Fault]):
        super().__init__(name, faults)
        self.name = name
        self.faults = faults

    def __str__(self) -> str:
        return "\n".join(
            f"{self.name}:{fault.line}: {fault.what}" if fault.line else f"{self.name}: {fault.what}"
            for fault in self.faults
        )


def bad_file(name: str, what: str) -> BadInput:
    """A fault of the file as a whole."""
    return BadInput(name, [Fault(0, what)])
