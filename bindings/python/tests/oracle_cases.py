"""Requests in reduced numbers, and what the oracle, a separate program, answers to them. The lines were printed, in
bindings/python, by

    python3 -m tests.oracle_cases | oracle --batch

(oracle/README.md), which is fed the blocks that `packed` makes by document 01's layout, not the library's."""
import sys
from typing import NamedTuple, Tuple

from .support import BUTANE, PROPANE, packed

METHANE = (190.564, 4.5992e6, 0.01142)
NITROGEN = (126.192, 3.3958e6, 0.0372)
INF, NAN = float("inf"), float("nan")


class Case(NamedTuple):
    line: str
    kind: int
    components: Tuple[Tuple[float, float, float], ...]
    fractions: Tuple[float, ...]
    interactions: Tuple[float, ...]
    choice: int = 0
    temperature: float = 0.0
    pressure: float = 0.0
    start: float = 0.0

    @property
    def status(self) -> int:
        return int(self.line.split()[1])

    def block(self) -> bytes:
        coefficients = [number for component in self.components for number in component]
        conditions = (self.choice, self.temperature, self.pressure, self.start)
        return packed(coefficients, self.interactions, self.fractions, *conditions)

    def request(self) -> bytes:
        return bytes([self.kind, len(self.components)]) + self.block()


LPG = ((PROPANE, BUTANE), (0.6, 0.4), (0.003,))
PURE = ((PROPANE,), (1.0,), ())
NATURAL_GAS = ((METHANE, NITROGEN, PROPANE), (0.9, 0.06, 0.04), (0.025, 0.014, -0.01))
METHANE_PROPANE = ((METHANE, PROPANE), (0.5, 0.5), (0.014,))
# one component under two names
ALIKE = ((PROPANE, PROPANE), (0.5, 0.5), (0.0,))
WITHOUT_BUTANE = ((PROPANE, BUTANE), (1.0, 0.0), (0.003,))

# no value handed out
NONE = " ".join(["0" * 16] * 3)

CASES = [
    Case("1 0 3F7B5EDAFF5A36A6 0000000000000000 0000000000000000 9", 1, *LPG, 1, 300.0, 0.05),
    Case("1 0 3F128BAA8A86D745 0000000000000000 0000000000000000 4", 1, *LPG, 0, 300.0, 0.02),
    Case("1 0 3F7B5EDAFF5A36A5 0000000000000000 0000000000000000 5", 1, *LPG, 2, 300.0, 0.05, 0.006),
    Case("1 0 3F669EEAD52E4163 0000000000000000 0000000000000000 5", 1, *NATURAL_GAS, 0, 250.0, 0.5),
    Case("2 0 3F7B5EDAFF5A36A6 0000000000000000 0000000000000000 15", 2, *LPG, 0, 300.0, 0.05),
    Case("2 0 3F7C8C173D6C18EC 0000000000000000 0000000000000000 16", 2, *PURE, 0, 300.0, 0.1),
    Case("2 0 3F8FC6A6FC3921A4 0000000000000000 0000000000000000 21", 2, *NATURAL_GAS, 0, 140.0, 0.2),
    Case("3 0 3FBB792EB3F0F2EE 3F49C70417B39E44 C11197E6DE6C5E58 5", 3, *LPG, 0, 300.0, 0.0, 0.001),
    Case("3 0 BFE0B672AF78875A 3F75D75D1A2D8FDF 4110C82889C5DD21 5", 3, *PURE, 0, 300.0, 0.0, 0.005),
    Case("4 0 3FBB792EB3F0F2EC 3F49C70417B39E33 0000000000000000 6", 4, *LPG, 0, 300.0),
    Case("4 0 BFEA66FDF659FA76 3F7505405A7006E2 0000000000000000 9", 4, *LPG, 1, 300.0),
    Case("5 0 40771D213CEC8CA5 3F662B76C42F98DC 0000000000000000 5", 5, *PURE),
    Case("5 0 40771D213CEC8CA6 3F662B76C42F98DA 0000000000000000 6", 5, *PURE, 0, 350.0, 0.0, 0.002),
    Case("5 0 407A91C12982F698 3F613BFB372EDA07 0000000000000000 6", 5, *LPG, 1),
    Case("6 0 3F50CDB880EB94A5 3F75D75D1A2D8EAF 0000000000000000 19", 6, *PURE, 0, 300.0),
    Case("6 0 3F4A98AA3FAE44DC 3F70D5BA291BDF4F 0000000000000000 20", 6, *LPG, 1, 350.0),
    Case("5 0 40771D213CEC8CA3 3F662B76C42F98D6 0000000000000000 34", 5, *PURE, 0, 3.0, 0.0, 1e-9),
    Case("7 0 4078BA68707F3DA0 3F643FA92CC972CF 0000000000000000 5", 7, *LPG),
    Case("7 0 4078BA68707F3D9F 3F643FA92CC972CF 0000000000000000 5", 7, *LPG, 0, 350.0, 0.0, 0.002),
    Case("7 0 4078BA68707F3DA0 3F643FA92CC972CF 0000000000000000 5", 7, *LPG, 2**64 - 1, 0.0, NAN),
    Case("7 0 407411501C89CE67 3F7253400BAEFB92 0000000000000000 5", 7, *METHANE_PROPANE),
    Case("7 0 40771D213CEC8CA7 3F662B76C42F98D7 0000000000000000 5", 7, *ALIKE),
    Case("8 0 3F54BFE6B8B66F4A 3F52F11B29E6C7E2 0000000000000000 4", 8, *LPG, 0, 400.0),
    Case("8 0 3F625D3E23B78C72 3F39479952F04DD5 0000000000000000 7", 8, *LPG, 0, 380.0, 0.0, 0.002),
    Case("8 0 3F54BFE6B8B66F4A 3F52F11B29E6C7E2 0000000000000000 4", 8, *LPG, 2**64 - 1, 400.0, NAN),
    Case("8 0 3F6A93F2FA68A650 3F605FE9909EE0A4 0000000000000000 7", 8, *METHANE_PROPANE, 0, 300.0),
    Case("9 0 4079FB6B082ED6DA 3F3F2011DB424AE5 3F5CBC969F774ACB 7", 9, *LPG, 0, 400.0, 0.29),
    Case("9 0 4079FB6B082ED6DC 3F3F2011DB424AF7 3F5CBC969F774AD4 86", 9, *LPG, 0, 0.0, 0.29),
    Case("9 0 407890D30C1F185A 3F5A6775A1EF9CF9 3F4D1D0944E2508B 8", 9, *LPG, 0, 380.0, 0.31, 0.002),
    Case("9 0 4079FB6B082ED6DA 3F3F2011DB424AE5 3F5CBC969F774ACB 7", 9, *LPG, 2**64 - 1, 400.0, 0.29),
    Case("9 0 40757EE83084FAC9 3F532DDD18BC0BB3 3F643A42E4617036 5", 9, *METHANE_PROPANE, 0, 0.0, 0.5),
    # refused by the data
    Case(f"1 12 {NONE} 0", 1, ((PROPANE[0], -4e6, 0.15),), (1.0,), (), 1, 300.0, 0.05),
    Case(f"2 13 {NONE} 0", 2, (PROPANE, BUTANE), (0.6, 0.4), (INF,), 0, 300.0, 0.05),
    Case(f"3 14 {NONE} 0", 3, (PROPANE, BUTANE), (1.4, -0.4), (0.0,), 0, 300.0, 0.0, 0.001),
    Case(f"1 15 {NONE} 0", 1, *PURE, 1, NAN, 0.05),
    Case(f"4 16 {NONE} 0", 4, *PURE, 2, 300.0),
    Case(f"3 17 {NONE} 0", 3, (PROPANE, BUTANE), (60.0, 40.0), (0.0,), 0, 300.0, 0.0, 0.001),
    Case(f"7 14 {NONE} 0", 7, (PROPANE, BUTANE), (1.4, -0.4), (0.003,)),
    Case(f"7 17 {NONE} 0", 7, (PROPANE, BUTANE), (60.0, 40.0), (0.003,)),
    Case(f"7 15 {NONE} 0", 7, *LPG, 0, -0.0, 0.0, 0.002),
    Case(f"8 14 {NONE} 0", 8, (PROPANE, BUTANE), (1.4, -0.4), (0.003,), 0, 400.0),
    Case(f"8 17 {NONE} 0", 8, (PROPANE, BUTANE), (60.0, 40.0), (0.003,), 0, 400.0),
    Case(f"8 15 {NONE} 0", 8, *LPG),
    Case(f"8 15 {NONE} 0", 8, *LPG, 0, 400.0, 0.0, INF),
    Case(f"9 14 {NONE} 0", 9, (PROPANE, BUTANE), (1.4, -0.4), (0.003,), 0, 400.0, 0.29),
    Case(f"9 17 {NONE} 0", 9, (PROPANE, BUTANE), (60.0, 40.0), (0.003,), 0, 400.0, 0.29),
    Case(f"9 15 {NONE} 0", 9, *LPG, 0, -0.0, 0.29),
    Case(f"9 15 {NONE} 0", 9, *LPG, 0, 400.0, NAN),
    Case(f"9 15 {NONE} 0", 9, *LPG, 0, 400.0, 0.29, -INF),
    # refused by the equation
    Case(f"3 21 {NONE} 0", 3, *PURE, 0, 300.0),
    Case(f"1 21 {NONE} 0", 1, *PURE, 2, 300.0, 0.05, -1e-3),
    Case(f"4 22 {NONE} 30", 4, *PURE, 0, 600.0),
    Case(f"6 26 {NONE} 55", 6, *PURE, 0, 600.0),
    Case(f"1 27 {NONE} 1", 1, *PURE, 0, 300.0, 1e300),
    Case(f"7 22 {NONE} 50", 7, *LPG, 0, 5000.0),
    Case(f"7 22 {NONE} 3", 7, *WITHOUT_BUTANE),
    Case(f"7 27 {NONE} 1", 7, *WITHOUT_BUTANE, 0, 350.0),
    # an interaction of 2 makes the blend's a 0
    Case(f"7 23 {NONE} 1", 7, *ALIKE[:2], (2.0,), 0, 300.0),
    Case(f"8 22 {NONE} 200", 8, *LPG, 0, 500.0),
    Case(f"8 23 {NONE} 1", 8, *ALIKE, 0, 5000.0),
    Case(f"8 27 {NONE} 1", 8, *WITHOUT_BUTANE, 0, 400.0),
    # -0 is a start
    Case(f"8 27 {NONE} 1", 8, *LPG, 0, 390.0, 0.0, -0.0),
    Case(f"9 22 {NONE} 200", 9, *LPG, 0, 400.0, 1.0),
    Case(f"9 23 {NONE} 3", 9, *ALIKE, 0, 5000.0, 0.3),
    Case(f"9 27 {NONE} 1", 9, *WITHOUT_BUTANE, 0, 400.0, 0.29),
    Case(f"9 27 {NONE} 1", 9, *LPG, 0, 400.0, 1e308),
    Case(f"2 24 {NONE} 64", 2, *PURE, 0, 300.0, -100.0),
]

# evaluation by evaluation the density, in words, of the first case:
#     python3 -m tests.oracle_cases | oracle --trace
TRACE = [
    "3F81AF3A371CF348",
    "3F808C421F1C7A1F",
    "3F7E98026D7E576A",
    "3F7C9157B8A011EE",
    "3F7B91BE8F508C77",
    "3F7B606F15160581",
    "3F7B5EDB656E8242",
    "3F7B5EDAFF5A3D2A",
    "3F7B5EDAFF5A36A6",
]
# of the first cases of kinds 8 and 9 the sum of the partial densities
LINE_TRACES = {
    8: ["3F6538AC4222BD89", "3F63FCF8604ECDDE", "3F63D8AEEBA29C8E", "3F63D880F199489C"],
    9: [
        "3F6538AC4222BD89",
        "3F64A39FC0191DA4",
        "3F63FD6A6C400958",
        "3F634458574FF733",
        "3F627353AB18A142",
        "3F624217AEEE6B77",
        "3F62424D8546F99A",
    ],
}

if __name__ == "__main__":
    sys.stdout.buffer.write(b"".join(case.request() for case in CASES))
