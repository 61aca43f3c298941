"""The six functions by their refusals, with every byte as it was; and the shared object: made, missing, broken."""
import ctypes
import os
import shutil
import subprocess
import sys
import tempfile
import unittest
from pathlib import Path
from typing import Any, Callable

from peng_robinson_board import library

from tests.support import FOLDER, PROPANE, environment, launch

KEPT = 2**64 - 7
GOOD = (3, 1, PROPANE, (), (1.0,), 0, 300.0, 0.0, 0.001)


def written() -> bytes:
    block = bytearray(640)
    if library.write_block(*GOOD, block) != 0:
        raise AssertionError("the writer refuses a good request")
    return bytes(block)


class Submit(unittest.TestCase):
    def refused(self, board: bytearray, queue: int, kind: int, n: int, block: bytes) -> int:
        before, ticket = bytes(board), ctypes.c_uint64(KEPT)
        number = library.submit(board, queue, kind, n, block, ticket)
        if number != 0:
            self.assertEqual((bytes(board), ticket.value), (before, KEPT))
        return number

    def test_each_refusal_in_its_order(self) -> None:
        good, bad_board = written(), bytearray(24_583)
        for expected, board, queue, kind, n, block in (
            (6, bad_board, 4, 7, 9, b""),
            (6, bytearray(), 0, 3, 1, good),
            (6, bytearray(24_585), 0, 3, 1, good),
            (6, bytearray(b"\xff" * 24_584), 0, 3, 1, good),
            (1, bytearray(24_584), 4, 7, 9, b""),
            (1, bytearray(24_584), 2**64 - 1, 3, 1, good),
            (2, bytearray(24_584), 0, 0, 9, b""),
            (2, bytearray(24_584), 0, 10, 2, good),
            (2, bytearray(24_584), 0, 2**32 + 3, 1, good),
            (3, bytearray(24_584), 0, 3, 0, b""),
            (3, bytearray(24_584), 0, 3, 9, good),
            (3, bytearray(24_584), 0, 7, 1, good),
            (3, bytearray(24_584), 0, 7, 3, b""),
            (3, bytearray(24_584), 0, 7, 2**32 + 2, good),
            (3, bytearray(24_584), 0, 8, 1, good),
            (3, bytearray(24_584), 0, 9, 3, b""),
            (8, bytearray(24_584), 0, 7, 2, b""),
            (8, bytearray(24_584), 0, 8, 2, b""),
            (8, bytearray(24_584), 0, 9, 2, good[:639]),
            (8, bytearray(24_584), 0, 3, 1, b""),
            (8, bytearray(24_584), 0, 3, 1, good[:639]),
            (8, bytearray(24_584), 0, 3, 1, good + b"\0"),
        ):
            with self.subTest(expected=expected, queue=queue, kind=kind, n=n, length=len(block)):
                self.assertEqual(self.refused(board, queue, kind, n, block), expected)

    def test_ninth_job(self) -> None:
        board = bytearray(24_584)
        for _ in range(8):
            self.assertEqual(self.refused(board, 2, 3, 1, written()), 0)
        self.assertEqual(self.refused(board, 2, 3, 1, written()), 4)
        # 8 is tested before 4
        self.assertEqual(self.refused(board, 2, 3, 1, b"short"), 8)


class Turn(unittest.TestCase):
    def test_refusals(self) -> None:
        for expected, length, size in ((6, 24_583, 0), (6, 0, 64), (5, 24_584, 0), (5, 24_584, 63)):
            board, record = bytearray(length), bytearray(b"\xab" * size)
            with self.subTest(expected=expected, length=length, size=size):
                self.assertEqual(library.turn(board, record), expected)
                self.assertEqual((bytes(board), bytes(record)), (bytes(length), b"\xab" * size))

    def test_writes_64_bytes_and_no_others(self) -> None:
        board, record = bytearray(24_584), bytearray(b"\xab" * 100)
        library.submit(board, 0, 3, 1, bytes(640), ctypes.c_uint64())
        for _ in range(116):
            self.assertEqual(library.turn(board, record), 0)
            self.assertEqual(bytes(record), b"\xab" * 100)
        self.assertEqual(library.turn(board, record), 1)
        # document 01: 640 zeros are refused by 11; ticket 0, kind 3, queue 0
        sealed = (11).to_bytes(8, "little") + bytes(40)
        self.assertEqual(bytes(record), bytes(8) + b"\x03" + bytes(7) + sealed + b"\xab" * 36)


class Look(unittest.TestCase):
    def test_refusals(self) -> None:
        waiting = bytearray(24_584)
        library.submit(waiting, 1, 3, 1, written(), ctypes.c_uint64())
        for expected, board, queue in (
            (6, bytearray(1), 9),
            (1, bytearray(24_584), 4),
            (7, bytearray(24_584), 3),
            (7, waiting, 1),
        ):
            before, evaluations, density = bytes(board), ctypes.c_uint64(KEPT), ctypes.c_double(-1.5)
            with self.subTest(expected=expected, queue=queue):
                self.assertEqual(library.look(board, queue, evaluations, density), expected)
                self.assertEqual((bytes(board), evaluations.value, density.value), (before, KEPT, -1.5))


class Quote(unittest.TestCase):
    def test_each_refusal_in_its_order(self) -> None:
        full = bytearray(24_584)
        for _ in range(8):
            library.submit(full, 2, 3, 1, bytes(640), ctypes.c_uint64())
        for expected, board, queue, kind in (
            (6, bytearray(24_583), 4, 0),
            (6, bytearray(), 0, 3),
            (6, bytearray(24_585), 0, 3),
            (6, bytearray(b"\xff" * 24_584), 0, 3),
            (1, full, 4, 0),
            (1, full, 2**64 - 1, 3),
            (1, full, 2**32 + 2, 3),
            (2, full, 2, 0),
            (2, full, 2, 10),
            (2, full, 0, 2**32 + 3),
            (4, full, 2, 3),
        ):
            before, turns = bytes(board), ctypes.c_uint64(KEPT)
            with self.subTest(expected=expected, queue=queue, kind=kind):
                self.assertEqual(library.quote(board, queue, kind, turns), expected)
                self.assertEqual((bytes(board), turns.value), (before, KEPT))

    def test_only_reads_the_board(self) -> None:
        board, turns = bytearray(24_584), ctypes.c_uint64(KEPT)
        self.assertEqual((library.quote(board, 3, 4, turns), turns.value), (0, 120))
        self.assertEqual(bytes(board), bytes(24_584))


class Answer(unittest.TestCase):
    def test_refusals(self) -> None:
        good = written()
        for expected, kind, n, block, size in (
            (2, 0, 0, b"", 0),
            (2, 10, 2, good, 64),
            (3, 3, 0, b"", 0),
            (3, 3, 9, good, 64),
            (3, 7, 1, good, 64),
            (3, 7, 8, b"", 0),
            (3, 8, 1, good, 64),
            (3, 9, 3, b"", 0),
            (8, 3, 1, good[:-1], 63),
            (8, 3, 1, b"", 64),
            (5, 3, 1, good, 63),
            (5, 3, 1, good, 0),
        ):
            record = bytearray(b"\xab" * size)
            with self.subTest(expected=expected, kind=kind, n=n, length=len(block), size=size):
                self.assertEqual(library.answer(kind, n, block, record), expected)
                self.assertEqual(bytes(record), b"\xab" * size)

    def test_writes_the_sealed_bytes_alone(self) -> None:
        record = bytearray(b"\xab" * 80)
        self.assertEqual(library.answer(3, 1, bytes(640), record), 0)
        self.assertEqual(bytes(record), b"\xab" * 16 + (11).to_bytes(8, "little") + bytes(40) + b"\xab" * 16)


class WriteBlock(unittest.TestCase):
    def test_refusals_leave_the_buffer(self) -> None:
        inf, nan = float("inf"), float("nan")
        two = PROPANE * 2
        for expected, size, words in (
            (2, 0, (0, 9, (), (), (), 0, nan, nan, nan)),
            (3, 0, (3, 0, (), (), (), 0, nan, nan, nan)),
            (3, 640, (3, 9, PROPANE * 9, (0.0,) * 36, (1 / 9,) * 9, 0, 300.0, 0.0, 0.001)),
            (3, 640, (7, 1, PROPANE, (), (1.0,), 0, 0.0, 0.0, 0.0)),
            (3, 640, (7, 3, PROPANE * 3, (0.0,) * 3, (0.5, 0.25, 0.25), 0, 0.0, 0.0, 0.0)),
            (3, 640, (8, 1, PROPANE, (), (1.0,), 0, 400.0, 0.0, 0.0)),
            (3, 640, (9, 3, PROPANE * 3, (0.0,) * 3, (0.5, 0.25, 0.25), 0, 0.0, 0.3, 0.0)),
            (8, 0, (3, 1, (), (), (), 0, nan, nan, nan)),
            (8, 0, (7, 2, (), (), (), 0, nan, nan, nan)),
            (8, 641, GOOD),
            (11, 640, (3, 1, PROPANE[:2], (), (1.0,), 0, 300.0, 0.0, 0.001)),
            (11, 640, (3, 2, two, (), (0.5, 0.5), 0, 300.0, 0.0, 0.001)),
            (11, 640, (3, 1, PROPANE, (), (), 0, nan, 0.0, 0.001)),
            (12, 640, (3, 1, (nan, 4e6, 0.1), (), (1.0,), 0, 300.0, 0.0, 0.001)),
            (12, 640, (3, 1, (300.0, 0.0, 0.1), (), (1.0,), 0, 300.0, 0.0, 0.001)),
            (13, 640, (3, 2, two, (inf,), (0.5, nan), 0, 300.0, 0.0, 0.001)),
            (14, 640, (3, 2, two, (0.0,), (1.0, -0.0), 0, nan, 0.0, 0.001)),
            (17, 640, (3, 2, two, (0.0,), (0.5, 0.4), 0, nan, 0.0, 0.001)),
            (15, 640, (3, 1, PROPANE, (), (1.0,), 0, nan, 0.0, 0.001)),
            (15, 640, (1, 1, PROPANE, (), (1.0,), 9, -inf, 0.0, 0.0)),
            (15, 640, (3, 1, PROPANE, (), (1.0,), 0, 300.0, 0.0, inf)),
            (16, 640, (1, 1, PROPANE, (), (1.0,), 3, 300.0, 0.1, 0.0)),
            (16, 640, (5, 1, PROPANE, (), (1.0,), 1, 0.0, 0.0, 0.0)),
            (14, 640, (7, 2, two, (0.0,), (1.0, -0.0), 0, nan, 0.0, 0.0)),
            (17, 640, (7, 2, two, (0.0,), (60.0, 40.0), 0, nan, 0.0, 0.0)),
            (15, 640, (7, 2, two, (0.0,), (0.5, 0.5), 9, -0.0, nan, 0.0)),
            (15, 640, (7, 2, two, (0.0,), (0.5, 0.5), 9, 0.0, nan, inf)),
            (14, 640, (8, 2, two, (0.0,), (1.0, -0.0), 0, 0.0, 0.0, 0.0)),
            (17, 640, (9, 2, two, (0.0,), (60.0, 40.0), 0, nan, nan, 0.0)),
            (15, 640, (8, 2, two, (0.0,), (0.5, 0.5), 9, 0.0, nan, 0.0)),
            (15, 640, (8, 2, two, (0.0,), (0.5, 0.5), 9, 400.0, nan, inf)),
            (15, 640, (9, 2, two, (0.0,), (0.5, 0.5), 9, -0.0, 0.3, 0.0)),
            (15, 640, (9, 2, two, (0.0,), (0.5, 0.5), 9, 0.0, nan, 0.0)),
            (15, 640, (9, 2, two, (0.0,), (0.5, 0.5), 9, 0.0, 0.3, inf)),
        ):
            block = bytearray(b"\xab" * size)
            with self.subTest(expected=expected, words=words):
                self.assertEqual(library.write_block(*words, block), expected)
                self.assertEqual(bytes(block), b"\xab" * size)


class Numbers(unittest.TestCase):
    def test_what_does_not_fit_64_bits_is_not_cut(self) -> None:
        board, record = bytearray(24_584), bytearray(64)
        calls: "list[Callable[[int], Any]]" = [
            lambda x: library.submit(board, x, 3, 1, bytes(640), ctypes.c_uint64()),
            lambda x: library.submit(board, 0, x, 1, bytes(640), ctypes.c_uint64()),
            lambda x: library.submit(board, 0, 3, x, bytes(640), ctypes.c_uint64()),
            lambda x: library.look(board, x, ctypes.c_uint64(), ctypes.c_double()),
            lambda x: library.quote(board, x, 3, ctypes.c_uint64()),
            lambda x: library.quote(board, 0, x, ctypes.c_uint64()),
            lambda x: library.answer(x, 1, bytes(640), record),
            lambda x: library.answer(3, x, bytes(640), record),
            lambda x: library.write_block(3, 1, PROPANE, (), (1.0,), x, 300.0, 0.0, 0.001, bytearray(640)),
        ]
        for call in calls:
            for number in (-1, 2**64, 2**64 + 3):
                self.assertRaises(ValueError, call, number)
        self.assertEqual((bytes(board), bytes(record)), (bytes(24_584), bytes(64)))


class SharedObject(unittest.TestCase):
    DENSITY = ["density", "propane", "--temperature", "300", "--pressure", "1e5", "--phase", "vapor"]

    def missing(self, *texts: str, **changes: str) -> None:
        ran = launch(self.DENSITY, **changes)
        self.assertEqual((ran.status, ran.out), (1, b""))
        self.assertEqual(len(ran.err.splitlines()), 1, ran.err)
        for text in texts:
            self.assertIn(text, ran.err)

    def test_variables_that_point_at_nothing(self) -> None:
        self.missing("/nowhere/x.so", "PENG_ROBINSON_BOARD_SO", PENG_ROBINSON_BOARD_SO="/nowhere/x.so")
        self.missing("tools/build gateway", "/nowhere/libgateway.a", PENG_ROBINSON_BOARD_LIB="/nowhere")

    def test_what_is_no_library(self) -> None:
        self.missing("tools/build gateway", PENG_ROBINSON_BOARD_SO=__file__)
        self.missing("PENG_ROBINSON_BOARD_SO", PENG_ROBINSON_BOARD_SO="/")

    def test_a_library_without_the_functions(self) -> None:
        import _ctypes

        if not getattr(_ctypes, "__file__", None):
            self.skipTest("no shared object at hand")
        self.missing("pr_submit", PENG_ROBINSON_BOARD_SO=_ctypes.__file__)

    def test_what_needs_no_library_works_without(self) -> None:
        nowhere = {"PENG_ROBINSON_BOARD_SO": "/nowhere/x.so"}
        for words in (["--help"], ["--version"], ["density", "--help"], ["components"]):
            with self.subTest(words=words):
                ran = launch(words, **nowhere)
                self.assertEqual((ran.status, ran.err), (0, ""))
        record = bytes(8) + b"\x03\x00" + bytes(54)
        self.assertEqual(launch(["record", "-"], record, **nowhere).status, 0)

    def test_make_shared_without_archive(self) -> None:
        script = [sys.executable, str(FOLDER / "make-shared")]
        env = environment(PENG_ROBINSON_BOARD_LIB="/nowhere")
        done = subprocess.run(script, env=env, capture_output=True, text=True, check=False)
        self.assertEqual((done.returncode, done.stdout), (1, ""))
        self.assertIn("`tools/build gateway` at the project's root writes it", done.stderr)
        self.assertNotIn("Traceback", done.stderr)

    def test_made_anew_from_another_archive_and_not_from_the_same(self) -> None:
        archive = library.archive_path()
        if not archive.is_file():
            self.skipTest(f"no {archive}")
        with tempfile.TemporaryDirectory() as folder:
            shutil.copy(archive, folder)
            shared = Path(folder) / "made.so"
            before = os.environ.get("PENG_ROBINSON_BOARD_LIB"), os.environ.get("CC")
            os.environ["PENG_ROBINSON_BOARD_LIB"] = folder
            try:
                self.assertEqual(library.make_shared(shared), shared)
                first = shared.stat()
                library.make_shared(shared)
                self.assertEqual(shared.stat().st_ino, first.st_ino)
                os.utime(Path(folder) / "libgateway.a", ns=(1, first.st_mtime_ns + 10**9))
                for compiler, text in (("/nowhere/cc", "CC"), ("'cc", "CC"), ("false", "makes no shared object")):
                    os.environ["CC"] = compiler
                    with self.assertRaises(library.LibraryMissing) as caught:
                        library.make_shared(shared)
                    self.assertIn(text, str(caught.exception))
                self.assertEqual(sorted(os.listdir(folder)), ["libgateway.a", "made.so"])
                del os.environ["CC"]
                library.make_shared(shared)
                self.assertNotEqual(shared.stat().st_ino, first.st_ino)
                self.assertTrue(hasattr(ctypes.CDLL(str(shared)), "pr_answer"))
            finally:
                for name, value in zip(("PENG_ROBINSON_BOARD_LIB", "CC"), before):
                    os.environ.pop(name, None)
                    if value is not None:
                        os.environ[name] = value
