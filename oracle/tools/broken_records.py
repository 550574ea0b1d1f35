"""Rests of inputs for the program `replies`: good records, and every form of refusal 8. A byte says how long each is."""
import math

from samples import FOUR, HEAD, MOVE_LENGTH, RECORD, record, with_numbers

ONE, TWO, THREE = (record(numbers) for numbers in FOUR[:3])
LENGTHS = (0, 1, 26, 103, 104, 106, 107, 210, 255, 256, 26880, 361, 65535)  # 26880 is 105 in the other byte order, 361 is 105 + 256
VERSIONS = (0, 2, 3, 105, 129, 255)
NANS = ("7FF8000000000000", "7FF0000000000001", "7FFFFFFFFFFFFFFF", "FFF8000000000000", "FFF0000000000001", "FFFFFFFFFFFFFFFF", "7FF4000000000000")
INFINITIES = ("7FF0000000000000", "FFF0000000000000")


def with_length(length, record):
    return length.to_bytes(2, "big") + record[2:]


def with_version(version, record):
    return record[:2] + bytes([version]) + record[3:]


def with_double(place, digits, record):
    start = len(HEAD) + 8 * place
    return record[:start] + bytes.fromhex(digits) + record[start + 8 :]


def good():
    """Whole, with more behind; refused for other reasons than 8."""
    rests = [ONE, TWO, THREE, record(FOUR[3]), TWO + THREE[:1], TWO + THREE, TWO + bytes(148), TWO + bytes([255] * 148)]
    for place in range(MOVE_LENGTH):
        rests += [with_double(place, digits, TWO) for digits in (NANS[place % 7], INFINITIES[place % 2])]
    rests += [with_double(3, digits, TWO) for digits in NANS + INFINITIES]
    rests += [record(with_numbers(*replaced)) for replaced in (((6, -1.0),), ((7, 1.0),), ((11, -1.0),), ((12, math.nextafter(1e12, 2e12)),), ((10, 0.0),))]
    return rests


def malformed():
    """Cut, of a wrong length or version, and wrong in two ways."""
    rests = [TWO[:length] for length in range(RECORD)]
    nan_inside = with_double(0, NANS[0], TWO)
    rests += [nan_inside[:length] for length in (2, 3, 11, RECORD - 1)]
    for behind in (b"", THREE):
        rests += [with_length(length, TWO) + behind for length in LENGTHS]
        rests += [with_version(version, TWO) + behind for version in VERSIONS]
    rests += [with_version(version, with_length(length, TWO)) for length in (104, 106, 361) for version in (0, 2)]
    rests += [with_version(2, nan_inside), with_length(104, nan_inside)]
    rests += [with_length(length, TWO)[:cut] for length in (0, 104, 106, 361) for cut in (2, 3, 50, RECORD - 1)]
    rests += [with_version(version, TWO)[:cut] for version in (0, 2, 255) for cut in (3, 50, RECORD - 1)]
    return rests


def rests_of_inputs():
    rests = good() + malformed()
    return b"".join(bytes([len(rest)]) + rest for rest in rests)
