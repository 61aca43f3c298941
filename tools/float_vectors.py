#!/usr/bin/env python3
"""Makes crates/float_vectors/stdin and stdout: bit patterns, and what another implementation makes of them.

usage: tools/float_vectors.py        run at the project's root; writes both files

The square root is the machine's, by math.sqrt. The logarithm is document 01's rule with document 02's split (P4), worked
in Python's floats, which are binary64 and round each operation to nearest even; significand and exponent come from
math.frexp. Nothing here is taken from the crate `float`.
"""
import math
import random
import struct

NAN = 0x7FF8000000000000
SIGN = 1 << 63
TOP = 0x7FF0000000000000
LN_2_HIGH = 0x3FE62E42FEE00000
LN_2_LOW = 0x3DEA39EF35793C76


def value(bits):
    return struct.unpack("<d", struct.pack("<Q", bits))[0]


def bits(x):
    return NAN if x != x else struct.unpack("<Q", struct.pack("<d", x))[0]


def root(x):
    return math.nan if x != x or x < 0 else math.sqrt(x)


def ln(x):
    if x == 0:
        return -math.inf
    if x != x or x == math.inf:
        return x
    if x < 0:
        return math.nan
    m, e = math.frexp(x)
    m, e = 2 * m, e - 1
    if m >= value(0x3FF6A09E667F3BCD):
        m, e = m / 2, e + 1
    s = (m - 1) / (m + 1)
    z = s * s
    h = 1 / 21
    for k in range(9, -1, -1):
        h = h * z + 1 / (2 * k + 1)
    return e * value(LN_2_HIGH) + (e * value(LN_2_LOW) + (2 * s) * h)


def greater(x, y):
    return y if x != x or x < y else x


def lesser(x, y):
    return y if x != x or x > y else x


def special():
    """Values such that each ordered pair of them stands on two successive lines."""
    values = [0, SIGN, 1, SIGN + 1, 0x000FFFFFFFFFFFFF, 0x0010000000000000, 0x3FF0000000000000, SIGN + 0x3FF0000000000000, 0x4000000000000000,
              0x7FEFFFFFFFFFFFFF, SIGN + 0x7FEFFFFFFFFFFFFF, TOP, SIGN + TOP, NAN, 0xFFF0000000000001]
    line = []
    for i, a in enumerate(values):
        line.append(a)
        for b in values[i + 1:]:
            line += [a, b]
    return line + values[:1]


def patterns():
    line = special()
    assert len(line) <= 256, len(line)
    pairs = set(zip(line, line[1:]))
    assert all((a, b) in pairs for a in line for b in line)
    for e in sorted(set(range(-1022, 1024, 6)) | set(range(-9, 10)) | {1022, 1023}):
        power = bits(math.ldexp(1.0, e))
        line += [power - 1, power, power + 1]
    for k in range(52):
        line += [max(1, (1 << k) - 1), 1 << k, (1 << k) + 1]
    line += [k for k in range(1, 9)] + [TOP - k for k in range(9)] + [TOP + 1, SIGN - 1]
    half = 0x3FF6A09E667F3BCD
    for e in (-1000, -500, -53, -2, -1, 0, 1, 2, 53, 500, 1000):
        line += [half + (e << 52) + k for k in (-2, -1, 0, 1, 2)]
    rng = random.Random(20240607)
    for _ in range(150):
        r = rng.randrange(1 << 26, 1 << 27)
        square = bits(math.ldexp(float(r * r), rng.randrange(-500, 500)))
        line += [square - 1, square, square + 1]
    line += [rng.getrandbits(64) for _ in range(500)]
    line += [rng.getrandbits(63) for _ in range(500)]
    line += [bits(math.exp(rng.uniform(-12, 12))) for _ in range(500)]
    return line


def main():
    line = patterns()
    assert len(line) * 17 <= 65536
    with open("crates/float_vectors/stdin", "w") as out:
        out.writelines("%016x\n" % b for b in line)
    before = 0.0
    with open("crates/float_vectors/stdout", "w") as out:
        for i, b in enumerate(line):
            x = value(b)
            words = [root(x), ln(x)]
            if i < 256:
                words += [x, abs(x), x if x != x else math.copysign(1.0, x), greater(before, x), lesser(before, x)]
            text = " ".join("%016x" % bits(w) for w in words)
            if i < 256:
                text += " %d %d" % (x == x and b >= SIGN, math.isfinite(x))
            out.write(text + "\n")
            before = x
    print(len(line), "patterns")


if __name__ == "__main__":
    main()
