"""Runs a test file by another Python of the machine, if this one lacks libraries that the file needs."""

import importlib.util
import os
import pathlib
import subprocess
import sys
import unittest

from needs import python_with

PYTHON = pathlib.Path(__file__).resolve().parent.parent


def missing(*libraries):
    """Which of some libraries this Python lacks."""
    return [name for name in libraries if importlib.util.find_spec(name) is None]


class Elsewhere(unittest.TestCase):
    """The tests of a file, by another Python."""

    def run_file(self, file, *libraries):
        """Runs a test file, or tells why it is skipped."""
        python = python_with(*libraries)
        if python is None:
            self.skipTest(f"no Python has {' and '.join(libraries)}: tools/setup_tests.sh installs what tests need")
        path = pathlib.Path(file).resolve()
        environment = {**os.environ, "PYTHONPATH": str(PYTHON)}
        words = [python, "-m", "unittest", "discover", "-v", "-s", str(path.parent), "-p", path.name]
        told = subprocess.run(words, env=environment, stdout=subprocess.PIPE, stderr=subprocess.STDOUT)
        lines = told.stdout.decode(errors="replace").splitlines()
        self.assertEqual(told.returncode, 0, "\n".join(lines))
        sys.stderr.write("".join(f"{path.name}: {line}\n" for line in lines if " ... skipped " in line))
