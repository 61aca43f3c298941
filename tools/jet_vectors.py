#!/usr/bin/env python3
"""Makes crates/jet_vectors/stdin and stdout: operations on jets, and what the oracle makes of them.

usage: tools/jet_vectors.py [ORACLE] [FOLDER]      run at the project's root; ORACLE is oracle/target/release/oracle by default

stdin: the oracle's own random and special operations (--jets-bin), then each operation on jets whose first coefficient
or whose every coefficient is a special value, then the operations that work out the first n coefficients only; these without
e3, and then again with it.
stdout: the lines of `oracle --jets-run`, each as the rules give it that are worked in tools/rules.py. Where n coefficients
are asked for, the oracle's line of the whole operation is cut here: n words are kept, and the others are +0.
"""
import random
import struct
import subprocess
import sys

import rules

SIZE = 32
# positions without e3
LOWER = 16
RECORD = 1 + 2 * 8 * SIZE
TWO = [0, 1, 3, 4]
OPERATIONS = range(12)
CUT = [3, 4, 6, 7]
COUNTS = [0, 1, 4, 16, 40]
ZERO = "0" * 16

SPECIAL = [
    0x0000000000000000,  # zeros
    0x8000000000000000,
    0x7FF0000000000000,  # infinities
    0xFFF0000000000000,
    0x7FF8000000000000,  # NaN, and two other patterns of it
    0xFFF0000000000001,
    0x7FFFFFFFFFFFFFFF,
    0x0000000000000001,  # subnormal
    0x800FFFFFFFFFFFFF,
    0x0010000000000000,  # the smallest normal, the largest
    0x7FEFFFFFFFFFFFFF,
    0xFFEFFFFFFFFFFFFF,
    0x3FF0000000000000,  # 1, -1
    0xBFF0000000000000,
    0x3FF6A09E667F3BCD,  # where the logarithm halves
    0x3FF6A09E667F3BCC,
]


def middling(rng):
    return struct.unpack("<Q", struct.pack("<d", rng.uniform(-4, 4)))[0]


def any_pattern(rng):
    return rng.getrandbits(64)


def subnormal(rng):
    return rng.getrandbits(52) | rng.getrandbits(1) << 63


def special(rng):
    return rng.choice(SPECIAL)


def jet(rng, first, others, size):
    return [first] + [others(rng) for _ in range(size - 1)] + [0] * (SIZE - size)


def record(operation, a, b):
    if operation % 16 not in TWO:
        b = [0] * SIZE
    return bytes([operation]) + struct.pack("<64Q", *a, *b)


def own_operations(rng, size):
    for operation in OPERATIONS:
        for first in SPECIAL:
            others = rng.choice([middling, middling, subnormal, special])
            a = jet(rng, first, others, size)
            b = jet(rng, special(rng) if operation != 4 else middling(rng), others, size)
            # a special divisor as often as a special dividend
            if operation == 4 and rng.getrandbits(1):
                a, b = b, a
            yield record(operation, a, b)
        for others in [any_pattern, subnormal, special]:
            yield record(operation, jet(rng, others(rng), others, size), jet(rng, others(rng), others, size))
    for operation in CUT:
        for i in range(len(COUNTS)):
            for others in [middling, middling, special]:
                first = middling(rng) & 0x7FFFFFFFFFFFFFFF if others is middling else special(rng)
                a, b = jet(rng, first, others, size), jet(rng, middling(rng), others, size)
                yield record(operation + 16 * (i + 1), a, b)


def whole(r):
    return bytes([r[0] % 16]) + r[1:]


def cut(operation, line):
    words = line.lower().split()
    if operation >= 16:
        n = min(COUNTS[operation // 16 - 1], SIZE)
        words = words[:n] + [ZERO] * (SIZE - n)
    return " ".join(words) + "\n"


def by_the_rules(r):
    """The line of the whole operation as tools/rules.py works it out."""
    numbers = struct.unpack("<64d", r[1:])
    result = rules.OPERATIONS[r[0] % 16](rules.Jet(numbers[:SIZE]), rules.Jet(numbers[SIZE:]))
    return " ".join(map(rules.word, result))


def main():
    oracle = sys.argv[1] if len(sys.argv) > 1 else "oracle/target/release/oracle"
    folder = sys.argv[2] if len(sys.argv) > 2 else "crates/jet_vectors"
    first = subprocess.run([oracle, "--jets-bin", "3", "480"], check=True, capture_output=True).stdout
    records = [first[i : i + RECORD] for i in range(0, len(first), RECORD)]
    records += own_operations(random.Random(3), LOWER)
    records += own_operations(random.Random(5), SIZE)
    answers = subprocess.run(
        [oracle, "--jets-run"], input=b"".join(map(whole, records)), check=True, capture_output=True
    ).stdout.decode()
    lines = answers.splitlines()
    assert len(lines) == len(records)
    for place, (r, line) in enumerate(zip(records, lines)):
        assert line == by_the_rules(r), f"operation {place}"
    with open(f"{folder}/stdin", "wb") as f:
        f.write(b"".join(records))
    with open(f"{folder}/stdout", "w") as f:
        f.writelines(cut(r[0], line) for r, line in zip(records, lines))
    print(len(records), "operations")


main()
