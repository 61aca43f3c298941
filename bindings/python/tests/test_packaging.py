"""The wheel that the build backend writes: its files, their hashes, and the package run out of it."""
import base64
import csv
import hashlib
import io
import subprocess
import sys
import tarfile
import tempfile
import unittest
import zipfile
from pathlib import Path

from tests.support import FOLDER, environment


def backend(call: str, folder: str) -> str:
    """A hook of the backend in a process of its own, as pip calls it; the name that it answers."""
    code = "import sys; sys.path.insert(0, sys.argv[1])\nimport build_backend\n"
    code += f"print(build_backend.{call}(sys.argv[2]))"
    words = [sys.executable, "-c", code, str(FOLDER), folder]
    done = subprocess.run(words, env=environment(), capture_output=True, text=True, check=True, cwd="/")
    return done.stdout.splitlines()[-1]


class Wheel(unittest.TestCase):
    @classmethod
    def setUpClass(cls) -> None:
        cls.temporary = tempfile.TemporaryDirectory()
        cls.addClassCleanup(cls.temporary.cleanup)
        cls.folder = Path(cls.temporary.name)
        cls.name = backend("build_wheel", str(cls.folder))

    def test_contents_and_hashes(self) -> None:
        with zipfile.ZipFile(self.folder / self.name) as wheel:
            contents = {name: wheel.read(name) for name in wheel.namelist()}
        about = "peng_robinson_board-0.1.0.dist-info"
        rows = {row[0]: row[1:] for row in csv.reader(io.StringIO(contents[f"{about}/RECORD"].decode()))}
        self.assertEqual(set(rows), set(contents))
        for name, data in contents.items():
            if not name.endswith("/RECORD"):
                digest = base64.urlsafe_b64encode(hashlib.sha256(data).digest()).rstrip(b"=").decode()
                self.assertEqual(rows[name], [f"sha256={digest}", str(len(data))])
        sources = {f"peng_robinson_board/{path.name}" for path in (FOLDER / "peng_robinson_board").glob("*.py")}
        self.assertLessEqual(sources, set(contents))
        self.assertIn("peng_robinson_board/components.csv", contents)
        self.assertTrue(contents["peng_robinson_board/libgateway.so"].startswith(b"\x7fELF"))
        self.assertIn(b"Root-Is-Purelib: false", contents[f"{about}/WHEEL"])
        self.assertIn(b"prboard = peng_robinson_board.cli:main", contents[f"{about}/entry_points.txt"])
        self.assertIn(b"License: MIT OR Apache-2.0", contents[f"{about}/METADATA"])
        tag = self.name[len("peng_robinson_board-0.1.0-") : -len(".whl")]
        self.assertIn(f"Tag: {tag}\n".encode(), contents[f"{about}/WHEEL"])

    def installed(self, folder: Path, **changes: str) -> "subprocess.CompletedProcess[str]":
        code = "import sys; sys.path.insert(0, sys.argv.pop(1))\n"
        code += "from peng_robinson_board.cli import main; sys.exit(main())"
        words = [sys.executable, "-c", code, str(folder), "critical", "propane"]
        env = environment(**changes)
        return subprocess.run(words, env=env, capture_output=True, text=True, cwd="/", check=False)

    def test_runs_where_it_is_unpacked(self) -> None:
        place = self.folder / "site"
        with zipfile.ZipFile(self.folder / self.name) as wheel:
            wheel.extractall(place)
        # an installed package has its own library and takes no archive
        done = self.installed(place, PENG_ROBINSON_BOARD_LIB="/nowhere")
        self.assertEqual((done.returncode, done.stderr), (0, ""))
        (place / "peng_robinson_board" / "libgateway.so").unlink()
        done = self.installed(place)
        self.assertEqual((done.returncode, len(done.stderr.splitlines())), (1, 1))
        self.assertIn("pip install", done.stderr)


class Sources(unittest.TestCase):
    def test_archive_of_the_sources(self) -> None:
        with tempfile.TemporaryDirectory() as folder:
            with tarfile.open(Path(folder) / backend("build_sdist", folder)) as archive:
                names = {name.split("/", 1)[1] for name in archive.getnames()}
        self.assertLessEqual({"pyproject.toml", "PKG-INFO", "build_backend.py", "peng_robinson_board/cli.py"}, names)
        self.assertNotIn("peng_robinson_board/libgateway.so", names)
