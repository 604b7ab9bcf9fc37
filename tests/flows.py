#!/usr/bin/env python3
"""Holds the auditor to two other judges.

    tests/flows.py [--small 10000] [--large 300] [--seed 1]

Small tables, up to 4 x 4: against a look through all tables with the same sums (brute.cpp): protected exactly where every
cell that lacks something has a witness. Larger ones, up to 40 x 40: against networkx's maximum flow, the same first open cell
and the same least cut. networkx is wanted for the second.
"""
import argparse
import concurrent.futures
import pathlib
import random
import struct
import subprocess
import sys
import tempfile

ROOT = pathlib.Path(__file__).resolve().parent.parent
sys.path.insert(0, str(ROOT / "bench"))
sys.path.insert(0, str(ROOT / "tests"))
import generate  # noqa: E402
from differential import AUDIT, ours, survey_bytes  # noqa: E402


def small_case(rng):
    rows, columns = rng.randint(1, 4), rng.randint(1, 4)
    cells = rows * columns
    top = rng.choice([2, 3, 5])
    workshops = [(d, rng.randint(0, top)) for d in range(cells) for _ in range(rng.choice([0, 1, 2, 2, 3]))]
    density = rng.choice([0.5, 0.7, 0.9, 1.0])
    pattern = bytes(int(rng.random() < density) for _ in range(cells))
    return AUDIT, True, survey_bytes(rows, columns, rng.choice([15, 50, 100]), workshops) + pattern


def profiles(data):
    rows, columns, percent, count = struct.unpack_from("<BBBH", data)
    inside = [[] for _ in range(rows * columns)]
    for i in range(count):
        cell, turnover = struct.unpack_from("<HI", data, 5 + 6 * i)
        inside[cell].append(turnover)
    pattern = data[5 + 6 * count:]
    cells = []
    for turnovers in inside:
        ranked = sorted(turnovers, reverse=True) + [0, 0]
        lack = (ranked[0] * percent + 99) // 100 - (sum(turnovers) - ranked[0] - ranked[1])
        cells.append((len(turnovers), sum(turnovers), ranked[0], max(0, lack)))
    return rows, columns, cells, pattern


def judged_by_networkx(data):
    import networkx
    rows, columns, cells, pattern = profiles(data)
    for c, (_, _, _, lack) in enumerate(cells):
        if lack == 0:
            continue
        if not pattern[c]:
            return f"open {c} printed\n"
        graph = networkx.DiGraph()
        graph.add_nodes_from([("row", r) for r in range(rows)] + [("column", k) for k in range(columns)])
        for d, (many, total, largest, _) in enumerate(cells):
            if pattern[d] and d != c and many >= 2:
                graph.add_edge(("row", d // columns), ("column", d % columns), capacity=total - largest)
                graph.add_edge(("column", d % columns), ("row", d // columns))
        source, sink = ("row", c // columns), ("column", c % columns)
        residual = networkx.algorithms.flow.edmonds_karp(graph, source, sink)
        if residual.graph["flow_value"] >= lack:
            continue
        reached, queue = {source}, [source]
        while queue:
            here = queue.pop()
            for there, edge in residual[here].items():
                if there not in reached and edge["flow"] < edge["capacity"]:
                    reached.add(there)
                    queue.append(there)
        marks = ["".join(f" {i}" for i in range(n) if (side, i) in reached) for side, n in (("row", rows), ("column", columns))]
        return f"open {c} rows{marks[0]} columns{marks[1]}\n"
    return "protected\n"


def large_case(rng):
    rows, columns = rng.randint(5, 40), rng.randint(5, 40)
    data = generate.survey(rng.randrange(1 << 30), rows, columns, rng.randint(2 * rows * columns, 20000), rng.choice([5, 15, 40]))
    _, _, cells, _ = profiles(data)
    density = rng.choice([0.02, 0.1, 0.3])
    return AUDIT, True, data + bytes(int(lack > 0 or rng.random() < density) for _, _, _, lack in cells)


def main():
    args = argparse.ArgumentParser()
    args.add_argument("--small", type=int, default=10000)
    args.add_argument("--large", type=int, default=300)
    args.add_argument("--seed", type=int, default=1)
    args = args.parse_args()
    rng = random.Random(args.seed)
    cases = [small_case(rng) for _ in range(args.small)]
    with tempfile.TemporaryDirectory() as folder:
        subprocess.run(["g++", "-O2", "-o", folder + "/brute", str(ROOT / "tests" / "brute.cpp")], check=True)
        feed = b"".join(struct.pack("<BBI", m, f, len(d)) + d for m, f, d in cases)
        wanted = subprocess.run([folder + "/brute"], input=feed, stdout=subprocess.PIPE, check=True).stdout.decode().splitlines()
    tally = {}
    with concurrent.futures.ThreadPoolExecutor(4) as pool:
        for i, (want, (got, _)) in enumerate(zip(wanted, pool.map(ours, cases))):
            words = got.decode().split()
            if want.split() != words[:3 if words[2:3] == ["printed"] else 2]:
                sys.exit(f"small table {i}: wanted {want!r}, got {got!r}")
            kind = "protected" if words == ["protected"] else "printed" if words[2:3] == ["printed"] else "barred"
            tally[kind] = tally.get(kind, 0) + 1
    print(f"{len(cases)} small tables, no difference: {tally}")
    tally = {}
    for i in range(args.large):
        case = large_case(rng)
        want, got = judged_by_networkx(case[2]), ours(case)[0].decode()
        if want != got:
            sys.exit(f"large table {i}: wanted {want!r}, got {got!r}")
        kind = want.split()[0]
        tally[kind] = tally.get(kind, 0) + 1
    print(f"{args.large} large tables, no difference: {tally}")


if __name__ == "__main__":
    main()
