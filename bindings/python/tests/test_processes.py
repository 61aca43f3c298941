"""The command line as a process: pipes that close, terminals, interrupts, streams that are missing or full."""
import os
import pty
import signal
import subprocess
import sys
import tempfile
import unittest
from pathlib import Path
from typing import List

from tests.oracle_cases import CASES
from tests.support import LAUNCHER, PROJECT, environment, launch, start

REQUESTS = str(PROJECT / "crates" / "answers" / "stdin")
DENSITY = ["density", "propane=0.6", "butane=0.4", "--temperature", "300", "--pressure", "5e5", "--phase", "liquid"]


class Launcher(unittest.TestCase):
    def test_the_command_of_the_readme(self) -> None:
        ran = launch(DENSITY)
        self.assertEqual((ran.status, ran.err), (0, ""))
        self.assertIn("kind 1", ran.text)

    def test_exit_statuses(self) -> None:
        self.assertEqual(launch(["--version"]).status, 0)
        self.assertEqual(launch(["density"]).status, 1)
        self.assertEqual(launch(["critical", "propane", "--temperature", "-1"]).status, 2)

    def test_files_of_the_current_folder_are_not_imported(self) -> None:
        with tempfile.TemporaryDirectory() as folder:
            for name in ("argparse", "json", "peng_robinson_board"):
                (Path(folder) / f"{name}.py").write_text("raise SystemExit(99)", encoding="utf-8")
            words = [str(LAUNCHER), "--version"]
            done = subprocess.run(words, cwd=folder, env=environment(), capture_output=True, check=False)
        self.assertEqual(done.returncode, 0)

    def test_through_a_link(self) -> None:
        with tempfile.TemporaryDirectory() as folder:
            link = Path(folder) / "linked"
            link.symlink_to(LAUNCHER)
            done = subprocess.run([str(link), "--version"], env=environment(), capture_output=True, check=False)
        self.assertEqual(done.returncode, 0)

    def test_as_a_module(self) -> None:
        words = [sys.executable, "-m", "peng_robinson_board", "--version"]
        env = environment(PYTHONPATH=str(PROJECT / "bindings" / "python"))
        done = subprocess.run(words, cwd="/", env=env, capture_output=True, check=False)
        self.assertEqual((done.returncode, done.stderr), (0, b""))

    def test_a_pipeline(self) -> None:
        written = launch(["write", *DENSITY])
        answered = launch(["answer", "-", "--bits"], written.out)
        self.assertEqual(answered.status, 0)
        self.assertRegex(answered.text, r"^1 0 [0-9A-F]{16} 0{16} 0{16} \d+\n$")

    def test_ascii_terminals(self) -> None:
        ran = launch(["critical", "b\u00fctane:425:3.8e6:0.2"], PYTHONIOENCODING="ascii")
        self.assertEqual(ran.status, 0)
        self.assertIn("b\\xfctane", ran.text)


class ClosedPipes(unittest.TestCase):
    def closed(self, words: List[str]) -> None:
        with self.subTest(words=words):
            process = start(words, stdin=subprocess.DEVNULL, stdout=subprocess.PIPE, stderr=subprocess.PIPE)
            assert process.stdout is not None and process.stderr is not None
            process.stdout.close()
            said = process.stderr.read()
            process.stderr.close()
            self.assertEqual((process.wait(20), said), (0, b""))

    def test_reader_of_standard_output_closes(self) -> None:
        for words in (DENSITY, ["write", *DENSITY], ["--help"], ["components"], [*DENSITY, "--json"]):
            self.closed(words)

    def test_reader_closes_after_a_line(self) -> None:
        process = start(["answer", REQUESTS, "--csv"], stdout=subprocess.PIPE, stderr=subprocess.PIPE)
        assert process.stdout is not None and process.stderr is not None
        process.stdout.readline()
        process.stdout.close()
        said = process.stderr.read()
        process.stderr.close()
        self.assertEqual((process.wait(20), said), (0, b""))

    def test_reader_of_standard_error_closes(self) -> None:
        refused = ["critical", "propane", "--temperature", "-1"]
        for words, status in ((refused, 2), (["density"], 1), (["critical", "x"], 1)):
            process = start(words, stdout=subprocess.PIPE, stderr=subprocess.PIPE)
            assert process.stdout is not None and process.stderr is not None
            process.stderr.close()
            self.assertEqual(process.stdout.read(), b"")
            process.stdout.close()
            self.assertEqual(process.wait(20), status)

    def test_streams_that_are_closed_from_the_start(self) -> None:
        for words, redirection, status in (
            (DENSITY, ">&-", 1),
            (["write", *DENSITY], ">&-", 1),
            (["write", *DENSITY, "-o", "/dev/null"], ">&-", 0),
            (["critical", "propane", "--temperature", "-1"], "2>&-", 2),
            (["answer", "-"], "<&-", 1),
            (["replay"], "<&-", 1),
        ):
            with self.subTest(words=words, redirection=redirection):
                command = ["sh", "-c", f'"$0" "$@" {redirection}', str(LAUNCHER), *words]
                done = subprocess.run(command, env=environment(), capture_output=True, check=False, timeout=20)
                self.assertEqual(done.returncode, status, done)
                self.assertNotIn(b"Traceback", done.stderr)

    @unittest.skipUnless(os.path.exists("/dev/full"), "no /dev/full")
    def test_a_full_device(self) -> None:
        for words in (DENSITY, ["write", *DENSITY], ["answer", REQUESTS], ["write", *DENSITY, "-o", "/dev/full"]):
            with self.subTest(words=words), open("/dev/full", "wb") as full:
                process = start(words, stdout=full, stderr=subprocess.PIPE)
                _, said = process.communicate(timeout=20)
                self.assertEqual((process.returncode, len(said.splitlines())), (1, 1), said)


class Terminals(unittest.TestCase):
    def test_binary_is_not_written_to_a_terminal(self) -> None:
        ours, theirs = pty.openpty()
        process = start(["write", *DENSITY], stdout=theirs, stderr=subprocess.PIPE)
        assert process.stderr is not None
        said = process.stderr.read()
        process.stderr.close()
        os.close(theirs)
        os.close(ours)
        self.assertEqual(process.wait(20), 1)
        self.assertIn(b"-o", said)
        self.assertEqual(len(said.splitlines()), 1)

    def bar(self, words: List[str], data: bytes) -> str:
        ours, theirs = pty.openpty()
        process = start(words, stdin=subprocess.PIPE, stdout=subprocess.PIPE, stderr=theirs)
        os.close(theirs)
        out, _ = process.communicate(data, timeout=20)
        said = b""
        try:
            while True:
                piece = os.read(ours, 4096)
                if not piece:
                    break
                said += piece
        except OSError:
            # a terminal whose other end is gone
            pass
        os.close(ours)
        self.assertEqual((process.returncode, len(out.splitlines())), (0, 3))
        return said.decode()

    def test_progress_on_a_terminal(self) -> None:
        requests = CASES[0].request() * 3
        with tempfile.NamedTemporaryFile() as file:
            file.write(requests)
            file.flush()
            self.assertIn("100% of 3 requests", self.bar(["answer", file.name], b""))
        self.assertIn("requests", self.bar(["answer", "-"], requests))

    def test_progress_below_the_lines_of_one_terminal(self) -> None:
        ours, theirs = pty.openpty()
        process = start(["answer", "-"], stdin=subprocess.PIPE, stdout=theirs, stderr=theirs)
        process.communicate(CASES[0].request() * 3, timeout=20)
        said = os.read(ours, 4096).decode()
        os.close(theirs)
        os.close(ours)
        *lines, last = said.split("\r\n")
        # what is left of each after the bar was wiped out
        self.assertEqual([line.split("\r")[-1].split()[:3] for line in lines], [[str(n), "kind", "1"] for n in (1, 2, 3)])
        self.assertIn("3 requests", last)
        self.assertEqual(last.split("\r")[-1], "")

    def test_no_progress_elsewhere(self) -> None:
        ran = launch(["answer", "-"], CASES[0].request())
        self.assertEqual((ran.status, ran.err), (0, ""))


class Interrupts(unittest.TestCase):
    def test_exit_status_130_without_a_traceback(self) -> None:
        env = environment(PYTHONUNBUFFERED="1")
        process = subprocess.Popen(
            [str(LAUNCHER), "replay"],
            env=env,
            stdin=subprocess.PIPE,
            stdout=subprocess.PIPE,
            stderr=subprocess.PIPE,
            # a shell's background jobs ignore it
            preexec_fn=lambda: signal.signal(signal.SIGINT, signal.SIG_DFL),
        )
        assert process.stdin is not None and process.stdout is not None
        process.stdin.write(b"look 0\n")
        process.stdin.flush()
        self.assertEqual(process.stdout.readline(), b"refused 7\n")
        process.send_signal(signal.SIGINT)
        _, said = process.communicate(timeout=20)
        self.assertEqual((process.returncode, said), (130, b""))
