#!/usr/bin/env python3
"""Plans one move, given as 13 numbers, with each choice of functions: python3 tools/ask.py P0 V0 A0 PF VF AF V_MAX V_MIN A_MAX A_MIN J_MAX BRAKE ACCEL"""
import os
import struct
import subprocess
import sys

from samples import MOVE_LENGTH, record

PLAN_MOVES = os.path.join(os.path.dirname(os.path.abspath(__file__)), "..", "target", "release", "plan_moves")

if len(sys.argv) != 1 + MOVE_LENGTH:
    sys.exit(__doc__)
given = record(map(float, sys.argv[1:]))
for choice in ("exact", "std", "libc"):
    lines = subprocess.run([PLAN_MOVES, "--functions", choice], input=given, stdout=subprocess.PIPE, check=True).stdout.decode().splitlines()
    answer = lines[1].split()[1:]
    if answer[0] == "ok":
        seconds = struct.unpack(">d", bytes.fromhex(answer[1]))[0]
        answer.append(f"({seconds!r})")
    print(f"{choice:5}", *answer)
