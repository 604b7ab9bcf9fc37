#!/usr/bin/env python3
"""How long one raise takes, by the size of the table and by how many cells are blank: bench/raises.py

Every cell has three workshops, 100, 95 and 1, and lacks 14 at 15 per cent; an audit raises each blank cell once, until one is
open. The time of an audit of a table of one cell is taken off.
"""
import pathlib
import random
import struct
import sys
import tempfile

ROOT = pathlib.Path(__file__).resolve().parent.parent
sys.path.insert(0, str(ROOT / "bench"))
from compare import least, program  # noqa: E402

AUDIT = [program("audit"), "--full"]


def table(rows, columns, sensitive):
    """cells that lack something where `sensitive`, else three equal workshops, which lack nothing"""
    body = b"".join(struct.pack("<HI", d, v) for d in range(rows * columns) for v in ((100, 95, 1) if sensitive[d] else (90, 90, 90)))
    return struct.pack("<BBBH", rows, columns, 15, 3 * rows * columns) + body


def timed(data):
    with tempfile.NamedTemporaryFile() as file:
        file.write(data)
        file.flush()
        return least(AUDIT, file.name, 15)


def main():
    empty = timed(table(1, 1, [False]) + b"\0")[1]
    for rows, columns in ((5, 5), (10, 10), (20, 20), (20, 40), (40, 20), (40, 40)):
        cells = rows * columns
        line, spent = timed(table(rows, columns, [True] * cells) + b"\1" * cells)
        print(f"{rows} x {columns}, all blank: {(spent - empty) / cells * 1e6:.1f} us a raise ({line.decode().strip()[:20]})")
    rng = random.Random(1)
    for share in (0.05, 0.1, 0.2, 0.5, 1.0):
        blank = [rng.random() < share for _ in range(1600)]
        line, spent = timed(table(40, 40, blank) + bytes(blank))
        done = sum(blank) if line == b"protected\n" else sum(blank[:int(line.split()[1]) + 1])
        print(f"40 x 40, {sum(blank)} blank: {(spent - empty) / max(1, done) * 1e6:.1f} us a raise, {done} raises ({line.decode().strip()[:20]})")


if __name__ == "__main__":
    main()
