#!/usr/bin/env python3
"""Makes crates/eos_vectors/stdin and stdout: single evaluations, and what the oracle makes of them.

usage: tools/eos_vectors.py [ORACLE] [FOLDER]      run at the project's root; ORACLE is oracle/target/release/oracle by default

stdin: the oracle's own evaluations (--evals); each evaluation on blends of 1 to 8 real fluids, criticality of two on blends of two;
the evaluations in turn on every pair of a special temperature and a special density; and each at the covolume, where the
repulsive term divides by about zero. Then criticality by two partial densities (7), with the pressure too (8): on pairs of real
fluids along their critical line and away from it, on special numbers in each place, and at the covolume.
stdout: the lines of `oracle --evals-run`, each as the rules give it that are worked in tools/rules.py.
"""
import random
import struct
import subprocess
import sys

import rules

EVALUATIONS = range(1, 9)
# criticality of two components, for no other number
OF_TWO = 6
# by partial densities in the place of the fractions, with a pressure in that of the density
BY_PARTS = [7, 8]

# critical temperature in K, critical pressure in Pa, acentric factor
FLUIDS = [
    (190.56, 4599000.0, 0.0115),  # methane
    (305.32, 4872000.0, 0.0995),  # ethane
    (369.83, 4248000.0, 0.1523),  # propane
    (425.12, 3796000.0, 0.2002),  # n-butane
    (126.20, 3400000.0, 0.0377),  # nitrogen
    (304.21, 7383000.0, 0.2236),  # carbon dioxide
    (647.10, 22064000.0, 0.3449),  # water
    (33.19, 1313000.0, -0.2160),  # hydrogen
]

INFINITY = float("inf")
NAN = float("nan")
TEMPERATURES = [300.0, 0.0, -0.0, -300.0, 5e-324, 1e308, INFINITY, NAN]
DENSITIES = [0.003, 0.0, -0.0, -0.003, 5e-324, 1e308, INFINITY, -INFINITY, NAN]


def record(evaluation, fluids, interactions, fractions, temperature, density):
    numbers = [x for fluid in fluids for x in fluid] + interactions + fractions + [temperature, density]
    return bytes([evaluation, len(fluids)]) + struct.pack(f"<{len(numbers)}d", *numbers)


def covolume(fluid):
    return 0.07780 * 13806490.0 * (fluid[0] / fluid[1])


def own_evaluations(rng):
    for n in range(1, 9):
        for evaluation in (e for e in range(1, 7) if e != OF_TWO or n == 2):
            for _ in range(20 if evaluation == OF_TWO else 2):
                fluids = rng.sample(FLUIDS, n)
                interactions = [rng.uniform(-0.1, 0.2) for _ in range(n * (n - 1) // 2)]
                fractions = [rng.uniform(0.01, 1.0) for _ in range(n)]
                b = sum(x * covolume(f) for x, f in zip(fractions, fluids)) / sum(fractions)
                yield record(evaluation, fluids, interactions, fractions, rng.uniform(100.0, 700.0), rng.uniform(0.01, 0.95) / b)
    for i, (temperature, density) in enumerate((t, rho) for t in TEMPERATURES for rho in DENSITIES):
        yield record(1 + i % 6, FLUIDS[:2], [0.01], [0.4, 0.6], temperature, density)
    for evaluation in range(1, 7):
        for fluid in FLUIDS:
            fluids, interactions, fractions = ([fluid] * 2, [0.0], [0.5, 0.5]) if evaluation == OF_TWO else ([fluid], [], [1.0])
            yield record(evaluation, fluids, interactions, fractions, fluid[0], 1.0 / covolume(fluid))


def by_parts(rng):
    for evaluation in BY_PARTS:
        for _ in range(60):
            fluids = rng.sample(FLUIDS, 2)
            x = rng.choice([0.5, rng.uniform(0.01, 0.99), 1e-4, 1e-9])
            fractions = rng.sample([x, 1 - x], 2)
            b = sum(z * covolume(f) for z, f in zip(fractions, fluids))
            density = rng.choice([0.27, rng.uniform(0.01, 0.95)]) / b
            temperature = rng.uniform(0.7, 1.3) * sum(z * f[0] for z, f in zip(fractions, fluids))
            pressure = rng.choice([rng.uniform(0.2, 3.0) * fluids[0][1] / 13806490.0, 0.0, -0.1, 1e-30])
            yield record(evaluation, fluids, [rng.uniform(-0.1, 0.2)], [z * density for z in fractions], temperature, pressure)
        # components alike
        for x in [0.5, 0.3]:
            for density in [0.001, 0.003, 0.008]:
                yield record(evaluation, [FLUIDS[2]] * 2, [0.0], [x * density, (1 - x) * density], 370.0, 0.3)
        # special numbers, one place at a time, then in both densities
        state = [400.0, 0.0012, 0.0009, 0.3]
        for place in range(4):
            for number in TEMPERATURES + DENSITIES:
                t, first, second, pressure = state[:place] + [number] + state[place + 1 :]
                yield record(evaluation, FLUIDS[2:4], [0.01], [first, second], t, pressure)
        for number in DENSITIES:
            for second in [number, -number]:
                yield record(evaluation, FLUIDS[2:4], [0.01], [number, second], 400.0, 0.3)
        for fluid in FLUIDS:
            half = 0.5 / covolume(fluid)
            yield record(evaluation, [fluid] * 2, [0.0], [half, half], fluid[0], 0.3)


def by_the_rules(r):
    """The line as tools/rules.py works it out."""
    n = r[1]
    numbers = list(struct.unpack(f"<{(len(r) - 2) // 8}d", r[2:]))
    fluids = [tuple(numbers[3 * i : 3 * i + 3]) for i in range(n)]
    rest = numbers[3 * n :]
    pairs = n * (n - 1) // 2
    yields = rules.evaluate(r[0], fluids, rest[:pairs], rest[pairs : pairs + n], *rest[pairs + n :])
    return " ".join(map(rules.word, yields))


def split(records):
    """The bytes of each evaluation."""
    at = 0
    while at < len(records):
        n = records[at + 1]
        size = 2 + 24 * n + 4 * n * (n - 1) + 8 * n + 16
        yield records[at : at + size]
        at += size


def main():
    oracle = sys.argv[1] if len(sys.argv) > 1 else "oracle/target/release/oracle"
    folder = sys.argv[2] if len(sys.argv) > 2 else "crates/eos_vectors"
    # 1,000 of evaluations 1 to 6 and 332 of 7 and 8
    drawn = subprocess.run([oracle, "--evals", "4", "1332"], check=True, capture_output=True).stdout
    records = list(split(drawn)) + list(own_evaluations(random.Random(4))) + list(by_parts(random.Random(6)))
    lines = subprocess.run([oracle, "--evals-run"], input=b"".join(records), check=True, capture_output=True).stdout
    assert len(lines.splitlines()) == len(records)
    for place, (r, line) in enumerate(zip(records, lines.decode().splitlines())):
        assert line == by_the_rules(r), f"evaluation {place}"
    with open(f"{folder}/stdin", "wb") as f:
        f.write(b"".join(records))
    with open(f"{folder}/stdout", "wb") as f:
        f.write(lines)

    finite = {e: 0 for e in EVALUATIONS}
    count = {e: 0 for e in EVALUATIONS}
    for r, line in zip(records, lines.decode().splitlines()):
        count[r[0]] += 1
        finite[r[0]] += all(int(word, 16) >> 52 & 0x7FF != 0x7FF for word in line.split())
    print(len(records), "evaluations")
    for e in EVALUATIONS:
        print(f"evaluation {e}: {count[e]}, of which {finite[e]} yield finite numbers only")


main()
