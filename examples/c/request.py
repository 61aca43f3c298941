#!/usr/bin/env python3
"""Writes the request of density.c, 642 bytes, to standard output: packed here by document 01's layout and not by the
library, for the oracle, which expected.txt is taken from."""
import struct
import sys

KIND, N = 1, 2
coefficients = struct.pack("<6d", 369.83, 4.248e6, 0.1523, 425.12, 3.796e6, 0.2002)
interactions = struct.pack("<d", 0.003)
fractions = struct.pack("<2d", 0.6, 0.4)
conditions = struct.pack("<Q3d", 1, 300.0, 0.05, 0.0)

pairs, parts = b"", b""
for part in (coefficients, interactions, fractions, conditions):
    pairs += struct.pack("<HH", 16 + len(parts), len(part))
    parts += part
sys.stdout.buffer.write(bytes([KIND, N]) + (pairs + parts).ljust(640, b"\0"))
