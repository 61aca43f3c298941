"""Jets and single evaluations by the rules of documents 01 and 02, in Python's floats, which are binary64 and round each
operation to nearest even. The makers of vectors compare the oracle's lines with these. Nothing here is taken from the oracle
or from a crate.
"""
import functools
import math
import struct

SIZE = 32
KB_A3 = 13806490.0
SQRT_2 = math.sqrt(2.0)


def value(bits):
    return struct.unpack("<d", struct.pack("<Q", bits))[0]


def word(x):
    return "7FF8000000000000" if x != x else struct.pack(">d", x).hex().upper()


# ---- floats, where Python raises instead of giving a number


def over(x, y):
    if y != 0:
        return x / y
    if x == 0 or x != x:
        return math.nan
    return math.copysign(math.inf, x) * math.copysign(1.0, y)


def root(x):
    return math.nan if x != x or x < 0 else math.sqrt(x)


def ln(x):
    if x == 0:
        return -math.inf
    if x != x or x == math.inf:
        return x
    if x < 0:
        return math.nan
    m, e = math.frexp(x)
    m, e = 2 * m, e - 1
    if m >= value(0x3FF6A09E667F3BCD):
        m, e = m / 2, e + 1
    s = (m - 1) / (m + 1)
    z = s * s
    h = 1 / 21
    for k in range(9, -1, -1):
        h = h * z + 1 / (2 * k + 1)
    return e * value(0x3FE62E42FEE00000) + (e * value(0x3DEA39EF35793C76) + (2 * s) * h)


# ---- jets: the coefficient of e0^i e1^j e2^k e3^l at i + 4j + 8k + 16l


def parts(p):
    return p % 4, p // 4 % 2, p // 8 % 2, p // 16


PAIRS = [
    [p for p in range(SIZE) if all(i <= j for i, j in zip(parts(p), parts(m)))] for m in range(SIZE)
]
DEGREE = [float(sum(parts(p))) for p in range(SIZE)]
assert sum(map(len, PAIRS)) == 270


class Jet(tuple):
    """32 coefficients; a plain number beside a jet is a jet with zeros after it."""

    @staticmethod
    def of(x, mark=None):
        c = [0.0] * SIZE
        c[0] = x
        if mark is not None:
            c[mark] = 1.0
        return Jet(c)

    def __add__(self, b):
        return Jet(x + y for x, y in zip(self, jet(b)))

    def __sub__(self, b):
        return Jet(x - y for x, y in zip(self, jet(b)))

    def __neg__(self):
        return Jet(-x for x in self)

    def __mul__(self, b):
        b = jet(b)
        return Jet(
            functools.reduce(lambda s, p: s + self[p] * b[m - p], PAIRS[m][1:], self[0] * b[m]) for m in range(SIZE)
        )

    def __truediv__(self, b):
        b, q = jet(b), []
        for m in range(SIZE):
            rest = self[m]
            for p in PAIRS[m][:-1]:
                rest -= q[p] * b[m - p]
            q.append(over(rest, b[0]))
        return Jet(q)

    def recip(self):
        return Jet.of(1.0) / self

    def square(self):
        return self * self

    def sqrt(self):
        r = [root(self[0])]
        for m in range(1, SIZE):
            rest = self[m]
            for p in PAIRS[m][1:-1]:
                rest -= r[p] * r[m - p]
            r.append(over(rest, 2.0 * r[0]))
        return Jet(r)

    def ln(self):
        l = [ln(self[0])]
        for m in range(1, SIZE):
            rest = DEGREE[m] * self[m]
            for p in PAIRS[m][1:-1]:
                rest -= (DEGREE[p] * l[p]) * self[m - p]
            l.append(over(rest, DEGREE[m] * self[0]))
        return Jet(l)

    def derivative(self, k):
        factorial = float(math.factorial(k))
        return Jet(factorial * self[m + k] if m % 4 == 0 else 0.0 for m in range(SIZE))

    def marked(self):
        """With e0: its coefficient is 1."""
        return Jet(self[:1] + (1.0,) + self[2:])


def jet(x):
    return x if isinstance(x, Jet) else Jet.of(x)


def total(terms):
    return functools.reduce(lambda s, x: s + x, terms)


# by the operation's byte
OPERATIONS = [
    lambda a, b: a + b,
    lambda a, b: a - b,
    lambda a, b: -a,
    lambda a, b: a * b,
    lambda a, b: a / b,
    lambda a, b: a.recip(),
    lambda a, b: a.sqrt(),
    lambda a, b: a.ln(),
    lambda a, b: a.square(),
    lambda a, b: a.derivative(1),
    lambda a, b: a.derivative(2),
    lambda a, b: a.derivative(3),
]

# ---- the equation of state


class Blend:
    """Fluids as (critical temperature, critical pressure, acentric factor), interactions by rows."""

    def __init__(self, fluids, interactions):
        n = len(fluids)
        self.tc = [tc for tc, _, _ in fluids]
        self.a = [0.45724 * KB_A3 * over(tc * tc, pc) for tc, pc, _ in fluids]
        self.b = [0.07780 * KB_A3 * over(tc, pc) for tc, pc, _ in fluids]
        self.kappa = [0.37464 + (1.54226 - 0.26992 * w) * w for _, _, w in fluids]
        self.k = [[0.0] * n for _ in range(n)]
        rows = iter(interactions)
        for i in range(n):
            for j in range(i + 1, n):
                self.k[i][j] = self.k[j][i] = next(rows)

    def helmholtz_energy(self, t, volume, moles):
        """The residual Helmholtz energy."""
        n = range(len(moles))
        partial = [x / volume for x in moles]
        density = total(partial)
        x = [rho / density for rho in partial]
        ak = [((Jet.of(1.0) - (t / self.tc[i]).sqrt()) * self.kappa[i] + 1.0).square() * self.a[i] for i in n]
        ak_mix = Jet.of(0.0)
        for i in n:
            for j in n:
                ak_mix = ak_mix + (ak[i] * ak[j]).sqrt() * (x[i] * x[j] * (1.0 - self.k[i][j]))
        b = total(x[i] * self.b[i] for i in n)
        v = density.recip()
        repulsion = (v / (v - b)).ln()
        attraction = ak_mix / (b * SQRT_2 * 2.0 * t) * ((v + b * (1.0 + SQRT_2)) / (v + b * (1.0 - SQRT_2))).ln()
        a = Jet.of(0.0) + density * (repulsion - attraction)
        return a * t * volume

    def matrix(self, t, v, x, sqrt_z):
        def along(direction):
            n = [z.marked() if i in direction else z for i, z in enumerate(x)]
            return (self.helmholtz_energy(t, v, n) / t).derivative(2)

        if len(x) == 1:
            h = [[along([0])]]
        else:
            h11, h22, h = along([0]), along([1]), along([0, 1])
            h12 = ((h - h11) - h22) * 0.5
            h = [[h11, h12], [h12, h22]]
        n = range(len(x))
        return [[h[i][j] * (sqrt_z[i] * sqrt_z[j]) + (1.0 if i == j else 0.0) for j in n] for i in n]

    def stability(self, t, density, x):
        return smallest(self.matrix(t, density.recip(), x, [z.sqrt() for z in x]))[0]

    def criticality(self, t, density, x):
        v = density.recip()
        sqrt_z = [z.sqrt() for z in x]
        l, u = smallest(self.matrix(t, v, x, sqrt_z))
        s = Jet.of(0.0, 1)
        n = [z + (r * w) * s for z, r, w in zip(x, sqrt_z, u)]
        logs = [Jet.of(0.0) if m[0] == 0 else (m / v).ln() - 1.0 for m in n]
        ideal = total(m * g for m, g in zip(n, logs))
        return [l, (self.helmholtz_energy(t, v, n) / t + ideal).derivative(3)]

    def criticality_p(self, pressure, t, rho):
        density = rho[0] + rho[1]
        x = [r / density for r in rho]
        c1, c2 = self.criticality(t, density, x)
        da = self.helmholtz_energy(t, density.recip().marked(), x).derivative(1)
        p = -da + density * t
        return [c1, c2, -p + pressure]


def smallest(m):
    """The smallest eigenvalue and its vector."""
    if len(m) == 1:
        return m[0][0], [Jet.of(1.0)]
    m11, m12, m22 = m[0][0], m[0][1], m[1][1]
    d = m11 - m22
    l = ((m11 + m22) - (d * d + (Jet.of(4.0) * m12) * m12).sqrt()) * 0.5
    if m12[0] == 0:
        return l, [Jet.of(1.0), Jet.of(0.0)] if m11[0] <= m22[0] else [Jet.of(0.0), Jet.of(1.0)]
    u = [m12, l - m11]
    length = (u[0] * u[0] + u[1] * u[1]).sqrt()
    return l, [x / length for x in u]


def with_derivatives(results, marks):
    """The values, then the derivatives by rows."""
    return [r[0] for r in results] + [r[mark] for r in results for mark in marks]


def evaluate(evaluation, fluids, interactions, fractions, t, rho):
    """What an evaluation yields, by its byte; 7 and 8 have partial densities as fractions and a pressure as density."""
    if evaluation in (4, 5):
        fluids, interactions, fractions = fluids[:1], [], [1.0]
    blend = Blend(fluids, interactions)
    x = [Jet.of(z) for z in fractions]
    if evaluation <= 3:
        v = over(1.0, rho)
        a = blend.helmholtz_energy(Jet.of(t), Jet.of(v, 1), x)
        a0, da, d2a, d3a = (a.derivative(k)[0] for k in range(4))
        p, slope = -da + t * rho, v * v * d2a + t
        if evaluation == 1:
            return [p, slope, 0.0]
        if evaluation == 2:
            return [p, slope, -v * v * v * (d2a * 2.0 + v * d3a)]
        return [a0 - da * v + t * ln(rho)]
    if evaluation == 5:
        return with_derivatives([blend.stability(Jet.of(t), Jet.of(rho, 8), x)], [8])
    if evaluation in (4, 6):
        return with_derivatives(blend.criticality(Jet.of(t, 4), Jet.of(rho, 8), x), [4, 8])
    if evaluation == 7:
        parts = [Jet.of(fractions[0], 4), Jet.of(fractions[1], 8)]
        density = parts[0] + parts[1]
        return with_derivatives(blend.criticality(Jet.of(t), density, [r / density for r in parts]), [4, 8])
    parts = [Jet.of(fractions[0], 8), Jet.of(fractions[1], 16)]
    return with_derivatives(blend.criticality_p(Jet.of(rho), Jet.of(t, 4), parts), [4, 8, 16])
