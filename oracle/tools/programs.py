"""Runs the oracle's programs."""
import os
import subprocess

PROGRAMS = os.path.join(os.path.dirname(os.path.abspath(__file__)), "..", "target", "release")


def run(program, *arguments, given=b""):
    return subprocess.run([os.path.join(PROGRAMS, program), *arguments], input=given, stdout=subprocess.PIPE, check=True).stdout
