#!/usr/bin/env python3
"""Writes stdin and stdout of this crate: files, and what the report must say of them, by the rules of docs/REPORT.md alone."""
from pathlib import Path

HERE = Path(__file__).parent


def report(file):
    if len(file) > 8192:
        return "refused 3 at 1"
    guest = file[5] if len(file) > 5 else None
    mark = file[6] if len(file) > 6 else None
    if guest not in (1, 2) or mark not in (1, 2):
        guest, mark = 1, 1
    if len(file) < 21:
        return f"refused 1 at {len(file)}"
    if file[0] != 1:
        return "refused 2 at 0"
    if int.from_bytes(file[1:5], "big") != len(file):
        return "refused 3 at 1"
    if file[5] != guest:
        return "refused 4 at 5"
    if file[6] != mark:
        return "refused 4 at 6"
    return f"guest {guest} mark {mark} length {len(file)}"


def start(version, stated, guest, mark, length):
    return bytes([version]) + stated.to_bytes(4, "big") + bytes([guest, mark]) + bytes(length - 7)


def cases():
    for length in range(0, 24):
        yield bytes(length)
        yield bytes([1] * length)
    for length in (21, 22, 255, 256, 4137, 8191, 8192):
        for guest in (0, 1, 2, 3, 255):
            for mark in (0, 1, 2, 3, 255):
                if length < 300 or (guest, mark) in ((1, 1), (2, 2), (1, 3), (2, 3), (3, 1), (3, 2)):
                    yield start(1, length, guest, mark, length)
        for version in (0, 2, 255):
            yield start(version, length, 1, 1, length)
        for stated in (0, length - 1, length + 1, length + 65536, length + 16777216, 4294967295):
            yield start(1, stated, 1, 2, length)
    # each byte of the stated length counts
    for stated in (0x01000015, 0x00010015, 0x00000115):
        yield start(1, stated, 1, 1, 21)
    # several faults: the lowest is given
    yield start(2, 0, 9, 9, 20)
    yield start(2, 0, 9, 9, 21)
    yield start(1, 0, 9, 9, 21)
    yield start(1, 21, 9, 9, 21)
    # an input over the limit is refused before anything else
    yield start(2, 0, 9, 9, 8193)
    yield start(1, 8193, 1, 2, 8193)


if __name__ == "__main__":
    files = list(cases())
    (HERE / "stdin").write_text("".join(f.hex() + "\n" for f in files))
    (HERE / "stdout").write_text("".join(report(f) + "\n" for f in files))
