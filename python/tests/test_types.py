"""Checks the types of the package by mypy, strictly, if it is there with the stubs that Debian has beside it."""

import pathlib
import subprocess
import tempfile
import unittest

from needs import needs_libraries, python_with

PYTHON = pathlib.Path(__file__).resolve().parent.parent
SECONDS = 300


class Types(unittest.TestCase):
    @needs_libraries("mypy", "aiohttp")
    def test_mypy_has_nothing_to_say(self):
        with tempfile.TemporaryDirectory() as room:
            words = [python_with("mypy", "aiohttp"), "-m", "mypy", "--strict", "--cache-dir", room, "rio9"]
            told = subprocess.run(words, cwd=PYTHON, capture_output=True, text=True, timeout=SECONDS)
        if "Library stubs not installed" in told.stdout:
            self.skipTest("mypy has no stubs of the libraries: tools/setup_tests.sh installs them")
        self.assertEqual(told.returncode, 0, told.stdout + told.stderr)


if __name__ == "__main__":
    unittest.main()
