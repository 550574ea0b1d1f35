"""Tests of the programs plan_moves and plan_full over pipes: however their input is cut into pieces the answer is the
same, and each record is answered as soon as it is whole. `rt run` in crates/plan_moves and in crates/plan_full makes
the programs; then
python3 -m unittest discover -s tools -p 'test_*.py'
"""
from __future__ import annotations

import fcntl
import os
import queue
import random
import struct
import subprocess
import sys
import termios
import threading
import time
import unittest
from collections.abc import Iterable
from pathlib import Path

ROOT = Path(__file__).resolve().parent.parent
RECORD = 107
LARGE = 1 << 16  # more than a read takes, and than a pipe holds unless it is made larger
SECONDS = 20  # how long a line may take, on a busy machine too


def program(name: str) -> str:
    path = ROOT / "crates" / name / "out" / name
    if not path.exists():
        sys.exit(f"{path}: not there; `rt run` in crates/{name} makes it")
    return str(path)


def pieces(data: bytes, places: Iterable[int]) -> list[bytes]:
    ends = [0, *sorted(places), len(data)]
    return [data[a:b] for a, b in zip(ends, ends[1:]) if a < b]


class Run:
    """A program between two pipes. A thread takes its lines as they come."""

    def __init__(self, name: str) -> None:
        self.child = subprocess.Popen([program(name)], stdin=subprocess.PIPE, stdout=subprocess.PIPE, bufsize=0)
        self.input = self.child.stdin.fileno()
        fcntl.fcntl(self.input, fcntl.F_SETPIPE_SZ, 4 * LARGE)
        self.lines: queue.Queue[bytes] = queue.Queue()
        self.reader = threading.Thread(target=self.take_lines, daemon=True)
        self.reader.start()

    def take_lines(self) -> None:
        rest = b""
        while got := os.read(self.child.stdout.fileno(), LARGE):
            *lines, rest = (rest + got).split(b"\n")
            for line in lines:
                self.lines.put(line + b"\n")
        self.lines.put(rest)

    def send(self, piece: bytes) -> None:
        """Writes the piece and waits until the program has read it, so that the next comes with another read."""
        os.write(self.input, piece)
        limit = time.monotonic() + SECONDS
        while struct.unpack("i", fcntl.ioctl(self.input, termios.FIONREAD, b"\0" * 4))[0]:
            if time.monotonic() > limit:
                raise TimeoutError("the program doesn't read")
            time.sleep(0)

    def line(self) -> bytes:
        return self.lines.get(timeout=SECONDS)

    def end(self) -> bytes:
        """Ends the input; the lines that weren't taken."""
        self.child.stdin.close()
        self.reader.join(SECONDS)
        status = self.child.wait(SECONDS)
        self.child.stdout.close()
        if status:
            raise ChildProcessError(f"status {status}")
        return b"".join(self.lines.queue)


def answer_to_pieces(name: str, sent: Iterable[bytes]) -> bytes:
    run = Run(name)
    for piece in sent:
        run.send(piece)
    return run.end()


class Programs:
    """The tests of both. `head` is what a program writes before any line."""

    name: str
    head: bytes

    @classmethod
    def setUpClass(cls) -> None:
        folder = ROOT / "crates" / cls.name
        moves = (folder / "stdin").read_bytes()
        cls.records = [moves[at : at + RECORD] for at in range(0, len(moves) - RECORD + 1, RECORD)]
        stored = (folder / "stdout").read_bytes().removeprefix(cls.head)
        cls.lines = stored.splitlines(keepends=True)[: len(cls.records)]

    def answer(self, data: bytes) -> bytes:
        """The answer to the input in one piece, from a file."""
        with open(os.memfd_create("records"), "w+b") as file:
            file.write(data)
            file.seek(0)
            return subprocess.run([program(self.name)], stdin=file, stdout=subprocess.PIPE, check=True).stdout

    def check_pieces(self, data: bytes, places: Iterable[int]) -> None:
        self.assertEqual(answer_to_pieces(self.name, pieces(data, places)), self.answer(data))

    def first(self, count: int) -> bytes:
        return b"".join(self.records[:count])

    def answer_to_first(self, count: int) -> bytes:
        return self.head + b"".join(self.lines[:count])

    # ---- pieces

    def test_stored_answers(self) -> None:
        data = self.first(len(self.records))
        self.assertGreater(len(data), LARGE)
        self.assertEqual(self.answer(data), self.answer_to_first(len(self.records)))
        self.check_pieces(data, [])

    def test_every_cut_of_a_record(self) -> None:
        count = RECORD - 1
        self.check_pieces(self.first(count), [i * RECORD + i + 1 for i in range(count)])
        both = {place for i in range(count) for place in (i * RECORD, i * RECORD + i + 1)}
        self.check_pieces(self.first(count), both)

    def test_byte_by_byte(self) -> None:
        data = self.first(3)
        self.check_pieces(data, range(len(data)))

    def test_cuts_anywhere(self) -> None:
        source = random.Random(8)
        data = self.first(len(self.records)) + self.records[0][:50]
        for count in (20, 200, 1500):
            self.check_pieces(data, source.sample(range(len(data)), count))

    def test_large_pieces(self) -> None:
        data = self.first(len(self.records)) * 2
        for size in (LARGE - 1, LARGE, LARGE + 1, 2 * LARGE + RECORD // 2):
            self.check_pieces(data, range(size, len(data), size))

    def test_long_lines(self) -> None:
        """Lines that together are longer than what is written at once."""
        longest = max(range(len(self.lines)), key=lambda i: len(self.lines[i]))
        count = 3000
        tail = self.lines[longest].partition(b" ")[2]
        expected = self.head + b"".join(b"%d " % (i + 1) + tail for i in range(count))
        data = self.records[longest] * count
        self.assertEqual(self.answer(data), expected)
        self.check_pieces(data, range(4 * LARGE, len(data), 4 * LARGE))

    # ---- the end

    def test_no_input(self) -> None:
        self.assertEqual(self.answer(b""), self.head)
        self.check_pieces(b"", [])

    def test_an_input_that_ends_inside_a_record(self) -> None:
        expected = self.answer_to_first(2) + b"3 refused 8\n"
        for length in range(1, RECORD):
            data = self.first(2) + self.records[2][:length]
            self.assertEqual(self.answer(data), expected)
            self.check_pieces(data, [RECORD, 2 * RECORD, 2 * RECORD + length // 2])

    def test_nothing_follows_a_wrong_record(self) -> None:
        right = self.records[1]
        expected = self.answer_to_first(1) + b"2 refused 8\n"
        for wrong in (b"\0\x68" + right[2:], b"\1" + right[1:], right[:2] + b"\2" + right[3:], right[1:] + b"\0"):
            for behind in (b"", right, right[:5], right * 2000):
                self.assertEqual(self.answer(self.records[0] + wrong + behind), expected)
            for place in range(1, RECORD):
                sent = [self.records[0] + wrong[:place], wrong[place:]]
                self.assertEqual(answer_to_pieces(self.name, sent), expected)

    def test_a_read_that_fails_is_the_end(self) -> None:
        folder = os.open(ROOT, os.O_RDONLY)
        self.addCleanup(os.close, folder)
        got = subprocess.run([program(self.name)], stdin=folder, stdout=subprocess.PIPE, check=True).stdout
        self.assertEqual(got, self.head)

    def test_a_write_that_fails_ends_it(self) -> None:
        """With an input that goes on, so that only the failed write can have ended the program."""
        reading, writing = os.pipe()
        with open("/dev/full", "wb") as full:
            child = subprocess.Popen([program(self.name)], stdin=reading, stdout=full)
        os.write(writing, self.first(3))
        self.assertEqual(child.wait(SECONDS), 0)
        os.close(reading)
        os.close(writing)

    # ---- promptness: nothing more is sent before the line is there

    def started(self) -> Run:
        run = Run(self.name)
        if self.head:
            self.assertEqual(run.line(), self.head)
        return run

    def test_each_record_is_answered_at_once(self) -> None:
        run = self.started()
        for record, line in zip(self.records[:50], self.lines):
            run.send(record)
            self.assertEqual(run.line(), line)
        self.assertEqual(run.end(), b"")

    def test_a_record_and_a_half(self) -> None:
        run = self.started()
        for i in range(0, 40, 2):
            one, two = self.records[i : i + 2]
            run.send(one + two[:53])
            self.assertEqual(run.line(), self.lines[i])
            run.send(two[53:])
            self.assertEqual(run.line(), self.lines[i + 1])
        self.assertEqual(run.end(), b"")

    def test_many_records_at_once(self) -> None:
        """Also where the lines are longer than what is written at once."""
        run = self.started()
        run.send(self.first(600) + self.records[600][:1])
        self.assertEqual([run.line() for _ in range(600)], self.lines[:600])
        run.send(self.records[600][1:])
        self.assertEqual(run.line(), self.lines[600])
        self.assertEqual(run.end(), b"")


class PlanMoves(Programs, unittest.TestCase):
    name = "plan_moves"
    head = b"plan 1\n"


class PlanFull(Programs, unittest.TestCase):
    name = "plan_full"
    head = b""


if __name__ == "__main__":
    unittest.main()
