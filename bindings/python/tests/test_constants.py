"""The package's constants against the C header's and document 01's."""
import re
import unittest

from peng_robinson_board import (
    BLOCK_BYTES,
    BOARD_BYTES,
    QUEUES,
    RECORD_BYTES,
    REQUEST_BYTES,
    Choice,
    Kind,
    Refusal,
    Refused,
    kinds,
    refusals,
)

from tests.support import PROJECT

HEADER = PROJECT / "include" / "peng_robinson_board.h"
# document 01, "Kinds and spans"; document 02, P3 and P5
SPANS = {1: 3101, 2: 6204, 3: 30, 4: 30, 5: 150, 6: 250, 7: 150, 8: 200, 9: 200}


@unittest.skipUnless(HEADER.is_file(), f"no {HEADER}")
class Header(unittest.TestCase):
    @classmethod
    def setUpClass(cls) -> None:
        cls.defined = {
            name: int(value) for name, value in re.findall(r"#define\s+PR_(\w+)\s+(\d+)", HEADER.read_text("utf-8"))
        }

    def of(self, prefix: str) -> "dict[str, int]":
        return {name[len(prefix) :]: value for name, value in self.defined.items() if name.startswith(prefix)}

    def test_refusals(self) -> None:
        self.assertEqual(self.of("REFUSED_"), {one.name: one.value for one in Refusal})

    def test_kinds_and_spans(self) -> None:
        self.assertEqual(self.of("KIND_"), {one.name: one.value for one in Kind})
        self.assertEqual(self.of("SPAN_"), {one.name: kinds.DESCRIPTIONS[one].span for one in Kind})

    def test_choices(self) -> None:
        self.assertEqual(self.of("CHOICE_"), {one.name: one.value for one in Choice})

    def test_sizes(self) -> None:
        names = ("BOARD_BYTES", "BLOCK_BYTES", "RECORD_BYTES", "REQUEST_BYTES", "QUEUES")
        sizes = (BOARD_BYTES, BLOCK_BYTES, RECORD_BYTES, REQUEST_BYTES, QUEUES)
        self.assertEqual(tuple(self.defined[name] for name in names), sizes)


class Documents(unittest.TestCase):
    def test_spans(self) -> None:
        self.assertEqual({int(kind): told.span for kind, told in kinds.DESCRIPTIONS.items()}, SPANS)

    def test_values_handed_out(self) -> None:
        names = {int(kind): [value.name for value in told.values] for kind, told in kinds.DESCRIPTIONS.items()}
        expected = {
            1: ["density"],
            2: ["density"],
            3: ["pressure", "density", "curvature"],
            4: ["pressure", "density"],
            5: ["temperature", "density"],
            6: ["vapor_density", "liquid_density"],
            7: ["temperature", "density"],
            8: ["partial_density_1", "partial_density_2"],
            9: ["temperature", "partial_density_1", "partial_density_2"],
        }
        self.assertEqual(names, expected)

    def test_refusals_are_the_documents_numbers(self) -> None:
        self.assertEqual([one.value for one in Refusal], [*range(1, 9), *range(11, 18), *range(21, 28)])

    def test_every_refusal_has_texts(self) -> None:
        texts = {(refusals.meaning(one), refusals.remedy(one)) for one in Refusal}
        self.assertEqual(len(texts), len(Refusal))

    def test_unknown_numbers_are_shown_as_numbers(self) -> None:
        refused = Refused(30)
        self.assertIsNone(refused.refusal)
        self.assertEqual((refused.number, refused.name), (30, "REFUSAL_30"))
        self.assertIn("30", str(refused))
        self.assertTrue(refused.meaning and refused.remedy)
        self.assertEqual((kinds.describe(10), kinds.title(10)), (None, "unknown kind"))
