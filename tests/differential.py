#!/usr/bin/env python3
"""Runs both programs beside the independent implementation (reference.cpp) on random inputs and compares output and status.

    tests/differential.py [--inputs 20000] [--large 40] [--seed 1]

A tenth of the inputs are damaged. `--large` adds tables of up to 40 x 40 with up to 20,000 workshops. The programs must have
been built (tests/build.sh). Ends with status 1 and the first difference where there is one.
"""
import argparse
import concurrent.futures
import pathlib
import random
import struct
import subprocess
import sys
import tempfile

ROOT = pathlib.Path(__file__).resolve().parent.parent
sys.path.insert(0, str(ROOT / "bench"))
import generate  # noqa: E402

PAGE, AUDIT, CELLS = 0, 1, 2


def program(name):
    """where a program lies once it is built"""
    return str(ROOT / "crates" / name / "out" / name)


def survey_bytes(rows, columns, percent, workshops):
    return struct.pack("<BBBH", rows, columns, percent, len(workshops)) + b"".join(struct.pack("<HI", c, v) for c, v in workshops)


def small_survey(rng):
    rows, columns = rng.randint(1, 6), rng.randint(1, 6)
    cells = rows * columns
    style = rng.random()
    top = rng.choice([1, 3, 10, 100, 1000, 1_000_000_000])
    count = rng.randint(0, 5 * cells) if style < 0.8 else cells
    workshops = [(rng.randrange(cells) if style < 0.8 else i, rng.randint(0, top)) for i in range(count)]
    if rng.random() < 0.2:
        workshops = [(c, v // max(1, top // 3) * max(1, top // 3)) for c, v in workshops]
    return rows, columns, rng.choice([1, 5, 15, 15, 30, 100]), workshops


def damaged(rng, data):
    data = bytearray(data)
    kind = rng.randrange(4)
    if kind == 0 and data:
        del data[rng.randrange(len(data)):]
    elif kind == 1:
        data += bytes(rng.randrange(256) for _ in range(rng.randint(1, 9)))
    elif kind == 2 and data:
        for _ in range(rng.randint(1, 4)):
            data[rng.randrange(len(data))] = rng.randrange(256)
    elif data:
        at = rng.randrange(min(5, len(data)))
        data[at] = rng.choice([0, 1, 40, 41, 100, 101, 255])
    return bytes(data)


def make_case(rng, large):
    if large:
        rows, columns = rng.randint(8, 40), rng.randint(8, 40)
        data = generate.survey(rng.randrange(1 << 30), rows, columns, rng.randint(0, 20000), rng.choice([5, 15, 50]))
    else:
        rows, columns, percent, workshops = small_survey(rng)
        data = survey_bytes(rows, columns, percent, workshops)
    mode = rng.choice([PAGE, AUDIT])
    if mode == AUDIT:
        density = rng.choice([0.0, 0.3, 0.6, 0.9, 1.0])
        data += bytes(int(rng.random() < density) for _ in range(rows * columns))
    if rng.random() < 0.1:
        data = damaged(rng, data)
    return mode, large or rng.random() < 0.5, data


def edge_cases():
    """surveys at the edges: equal sums, nothing but 0, one row, column or cell, lone workshops, all in one cell, no byte"""
    full = 1600
    surveys = [
        survey_bytes(40, 40, 15, [(d, 10) for d in range(full) for _ in range(12)]),
        survey_bytes(40, 40, 15, [(d, 10) for d in range(full) for _ in range(2 if d % 7 else 4)]),
        survey_bytes(40, 40, 15, [(d, 10 if d % 41 else 90) for d in range(full) for _ in range(5)]),
        survey_bytes(40, 40, 15, [(d, 0) for d in range(full) for _ in range(3)]),
        survey_bytes(1, 40, 15, [(d, 10 * d + i) for d in range(40) for i in range(6)]),
        survey_bytes(40, 1, 15, [(d, 10 * d + i) for d in range(40) for i in range(6)]),
        survey_bytes(1, 1, 15, [(0, 100)]),
        survey_bytes(1, 1, 15, [(0, 100), (0, 90), (0, 50)]),
        survey_bytes(1, 1, 15, []),
        survey_bytes(40, 40, 15, [(d, d + 1) for d in range(full)]),
        survey_bytes(40, 40, 100, [(777, 1_000_000_000)] * 20000),
        survey_bytes(2, 2, 100, [(d, 1_000_000_000) for d in range(4) for _ in range(5000)]),
        b"",
    ]
    cases = []
    for data in surveys:
        cells = data[0] * data[1] if data else 0
        cases += [(PAGE, True, data), (PAGE, False, data), (AUDIT, True, data + bytes([1]) * cells), (AUDIT, True, data + bytes(cells))]
    return cases


def reference(binary, cases):
    feed = b"".join(struct.pack("<BBI", m, f, len(d)) + d for m, f, d in cases)
    out = subprocess.run([binary, "stream"], input=feed, stdout=subprocess.PIPE, check=True).stdout
    answers, at = [], 0
    for _ in cases:
        status, size = struct.unpack_from("<BI", out, at)
        answers.append((out[at + 5:at + 5 + size], status))
        at += 5 + size
    return answers


def ours(case):
    mode, full, data = case
    command = [program("page" if mode == PAGE else "audit")] + (["--full"] if full else [])
    done = subprocess.run(command, input=data, stdout=subprocess.PIPE, stderr=subprocess.PIPE)
    return done.stdout, done.returncode


def main():
    args = argparse.ArgumentParser()
    args.add_argument("--inputs", type=int, default=20000)
    args.add_argument("--large", type=int, default=40)
    args.add_argument("--cells", type=int, default=10000)
    args.add_argument("--seed", type=int, default=1)
    args = args.parse_args()
    rng = random.Random(args.seed)
    with tempfile.TemporaryDirectory() as folder:
        binary = folder + "/reference"
        subprocess.run(["g++", "-O2", "-o", binary, str(ROOT / "tests" / "reference.cpp")], check=True)
        cases = edge_cases() + [make_case(rng, False) for _ in range(args.inputs)] + [make_case(rng, True) for _ in range(args.large)]
        wanted = reference(binary, cases)
        with concurrent.futures.ThreadPoolExecutor(4) as pool:
            for i, (case, want, got) in enumerate(zip(cases, wanted, pool.map(ours, cases))):
                if want != got:
                    pathlib.Path("/tmp/difference").write_bytes(case[2])
                    sys.exit(f"input {i} (mode {case[0]}, full {case[1]}, kept as /tmp/difference): wanted {want}, got {got}")
        kinds = {}
        for (text, status) in wanted:
            words = text.split()
            kind = " ".join(w.decode() for w in words[:2]) if words[:1] == [b"refused"] else words[0].decode() if words[:1] in ([b"open"], [b"protected"]) else "page"
            kinds[kind] = kinds.get(kind, 0) + 1
        surveys = [survey_bytes(*small_survey(rng)) for _ in range(args.cells)]
        want = b"".join(text for text, _ in reference(binary, [(CELLS, 1, s) for s in surveys]))
        got = subprocess.run([program("cells")], input=b"".join(surveys), stdout=subprocess.PIPE).stdout
        if want != got:
            sys.exit("the cells of some survey differ")
    print(f"{len(cases)} inputs ({args.large} of them large) and the cells of {len(surveys)} surveys: no difference")
    print(", ".join(f"{k}: {n}" for k, n in sorted(kinds.items())))


if __name__ == "__main__":
    main()
