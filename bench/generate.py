#!/usr/bin/env python3
"""Writes a survey by seed: generate.py SEED ROWS COLUMNS WORKSHOPS [PERCENT] > survey

Like a real year: districts and trades differ in size, turnovers are spread over some powers of ten, most cells have
several workshops and some have one or two.
"""
import random
import struct
import sys


def survey(seed, rows, columns, workshops, percent=15):
    rng = random.Random(seed)
    district = [rng.lognormvariate(0, 0.6) for _ in range(rows)]
    trade = [rng.lognormvariate(0, 0.8) for _ in range(columns)]
    scale = [rng.lognormvariate(9, 0.7) for _ in range(columns)]
    cells = rng.choices(range(rows * columns), weights=[d * t for d in district for t in trade], k=workshops)
    body = b"".join(
        struct.pack("<HI", c, min(1_000_000_000, int(rng.lognormvariate(0, 1.1) * scale[c % columns]))) for c in cells)
    return struct.pack("<BBBH", rows, columns, percent, workshops) + body


if __name__ == "__main__":
    numbers = [int(x) for x in sys.argv[1:]]
    sys.stdout.buffer.write(survey(*numbers))
