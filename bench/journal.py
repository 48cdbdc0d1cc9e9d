#!/usr/bin/env python3
"""How many records a second the journal appends, beside a plain loop of the same writes and syncs.

usage: bench/journal.py [FOLDER]

Run it once `rt ci` has built crates/journal_bench/out/journal_bench, the proved program. FOLDER, by default the
current one, should lie on the disk in question. For records of 64 and of 4,096 bytes the program and a plain loop
(write behind the gate, fdatasync, write the gate, fdatasync) take turns, and the medians of both are printed with
their ratio. The journal extends its slot ahead by zeros, which the loop doesn't. What the program takes for no record,
its start and the making of the files, is taken off. At least 0.9 is wanted; the status is 1 below that.
"""

import os
import statistics
import subprocess
import sys
import tempfile
import time

TURNS = 15
WANTED = 0.9
PROGRAM = os.path.join(os.path.dirname(__file__), "../crates/journal_bench/out/journal_bench")


def plain(folder, count, size):
    """Seconds that a plain loop takes."""
    body = b"a" * size
    record = size.to_bytes(8, "big") + body + b"\0"
    file = os.open(os.path.join(folder, "plain"), os.O_RDWR | os.O_CREAT | os.O_TRUNC)
    begun = time.perf_counter()
    os.pwrite(file, b"\0", 0)
    os.fdatasync(file)
    end = 0
    for _ in range(count):
        os.pwrite(file, record, end + 1)
        os.fdatasync(file)
        os.pwrite(file, b"\xa5", end)
        os.fdatasync(file)
        end += len(record)
    passed = time.perf_counter() - begun
    os.close(file)
    os.remove(os.path.join(folder, "plain"))
    return passed


def program(folder, count, size):
    """Seconds that the program takes."""
    for name in ("head", "slot_a", "slot_b", "blocks"):
        path = os.path.join(folder, name)
        if os.path.exists(path):
            os.remove(path)
    begun = time.perf_counter()
    subprocess.run([PROGRAM, folder, str(count), str(size)], check=True)
    return time.perf_counter() - begun


def enough(folder, size):
    """A count of records that takes the plain loop about half a second."""
    return max(20, int(10 / plain(folder, 20, size)))


def compared(folder, size):
    """Records a second of the program and of the plain loop, which take turns."""
    count = enough(folder, size)
    journal, loop = [], []
    for turn in range(TURNS):
        if turn % 2 == 0:
            loop.append(plain(folder, count, size))
        journal.append(program(folder, count, size) - program(folder, 0, size))
        if turn % 2 == 1:
            loop.append(plain(folder, count, size))
    return count / statistics.median(journal), count / statistics.median(loop)


def main():
    base = sys.argv[1] if len(sys.argv) > 1 else "."
    enough_everywhere = True
    with tempfile.TemporaryDirectory(dir=base) as folder:
        for size in (64, 4096):
            journal, loop = compared(folder, size)
            ratio = journal / loop
            enough_everywhere = enough_everywhere and ratio >= WANTED
            print(f"{size:5} bytes: journal {journal:6.0f}/s, plain loop {loop:6.0f}/s, ratio {ratio:.2f}")
    return 0 if enough_everywhere else 1


if __name__ == "__main__":
    sys.exit(main())
