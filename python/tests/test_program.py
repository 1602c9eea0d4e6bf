"""`python -m quic_wire`: which program it becomes, with which arguments and status."""

import os
import pathlib
import subprocess
import sys
import tempfile
import unittest
from unittest import mock

from quic_wire import __main__ as program
from quic_wire import __version__

POSIX = unittest.skipIf(sys.platform == "win32", "the programs here are scripts of a shell")
SHOWS_ARGUMENTS = """#!/bin/sh
for word; do echo "<$word>"; done
cat
exit 7
"""


def calls(folder, of="path", text=SHOWS_ARGUMENTS):
    """A call of the module that finds programs only in a folder: on the path, or as those of the interpreter."""
    folders, path = ([folder], []) if of == "scripts" else ([], [folder])
    begin = f"from quic_wire import __main__ as it; it.folders = lambda: {folders}; it.sys.exit(it.main())"
    if text is not None:
        file = pathlib.Path(folder, "quic-wire")
        file.write_text(text)
        file.chmod(0o755)
    return [sys.executable, "-c", begin], {**os.environ, "PATH": os.pathsep.join([*path, "/usr/bin", "/bin"])}


def run(call, *words, given=b""):
    command, environment = call
    done = subprocess.run([*command, *words], input=given, capture_output=True, env=environment)
    return done.stdout, done.stderr.decode(), done.returncode


class Program(unittest.TestCase):
    def setUp(self):
        found = tempfile.TemporaryDirectory()
        self.addCleanup(found.cleanup)
        self.folder = found.name

    @POSIX
    def test_arguments_input_and_status_are_passed_on(self):
        for of in ("path", "scripts"):
            with self.subTest(of):
                found = run(calls(self.folder, of), "frames", "a b", "", "--quinn", given=b"\xff01\n")
                self.assertEqual(found, (b"<frames>\n<a b>\n<>\n<--quinn>\n\xff01\n", "", 7))

    @POSIX
    def test_a_signal_ends_it_as_it_ends_the_program(self):
        found = run(calls(self.folder, text="#!/bin/sh\nkill -TERM $$\n"))
        self.assertEqual(found, (b"", "", -15))

    def test_folders_are_those_of_pip(self):
        first, *_, last = program.folders()
        if sys.prefix != sys.base_prefix:
            self.assertTrue(os.path.samefile(first, pathlib.Path(sys.executable).parent), "of a virtual environment")
        beside = pathlib.Path(program.__file__).resolve().parents[1]
        self.assertEqual(pathlib.Path(last), beside / "bin", "of pip install --target")

    @POSIX
    def test_the_interpreter_s_own_program_is_before_that_of_the_path(self):
        with tempfile.TemporaryDirectory() as other:
            for folder in (self.folder, other):
                calls(folder)
            with mock.patch.object(program, "folders", lambda: [self.folder]), mock.patch.dict(os.environ, PATH=other):
                self.assertEqual(program.program(), os.path.join(self.folder, "quic-wire"))
            with mock.patch.object(program, "folders", lambda: []), mock.patch.dict(os.environ, PATH=other):
                self.assertEqual(program.program(), os.path.join(other, "quic-wire"))

    @POSIX
    def test_without_a_program_it_says_how_to_get_one(self):
        command, environment = calls(self.folder, text=None)
        out, said, status = run((command, {**environment, "PATH": self.folder}), "frames")
        self.assertEqual((out, status), (b"", 3))
        self.assertRegex(said, r"^quic-wire: .* lacks the program quic-wire\. The wheel .* `cargo install --path rust/")

    @POSIX
    def test_a_file_that_is_no_program_is_named(self):
        out, said, status = run(calls(self.folder, text="\0"))
        self.assertEqual((out, status), (b"", 3))
        self.assertEqual(said, f"quic-wire: {self.folder}/quic-wire: Exec format error\n")

    # With a wheel that has it, this is the program in the wheel.
    def test_a_program_that_is_installed_is_of_this_version(self):
        if program.program() is None:
            self.skipTest("the program isn't here")
        done = subprocess.run([sys.executable, "-m", "quic_wire", "--version"], capture_output=True, text=True)
        self.assertEqual((done.stdout, done.returncode), (f"quic-wire {__version__}\n", 0))


if __name__ == "__main__":
    unittest.main()
