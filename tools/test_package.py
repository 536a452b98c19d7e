#!/usr/bin/env python3
"""Tests of package.sh: lintian has no errors about the package, which runs as it is unpacked, and the image has what it loads."""

import os
import pathlib
import shutil
import subprocess
import sys
import tempfile
import unittest

ROOT = pathlib.Path(__file__).resolve().parent.parent
sys.path.insert(0, str(ROOT / "python" / "tests"))
from needs import PROGRAM, needs_program

DEBIAN_PYTHON = "/usr/bin/python3"


def run(*words, **options):
    return subprocess.run(words, capture_output=True, text=True, **options)


def lacks():
    """What the package cannot be made without and is not there."""
    missing = [name for name in ("dpkg-deb", "strip", "gzip", DEBIAN_PYTHON) if shutil.which(name) is None]
    if not missing and run(DEBIAN_PYTHON, "-c", "import setuptools, wheel, pip").returncode:
        missing = ["Debian's python3-pip, python3-setuptools or python3-wheel"]
    return ", ".join(missing)


@needs_program
@unittest.skipIf(lacks(), f"not there: {lacks()}")
class Package(unittest.TestCase):
    def test_package(self):
        with tempfile.TemporaryDirectory() as room:
            made = run(str(ROOT / "tools" / "package.sh"), room, PROGRAM)
            self.assertEqual(made.returncode, 0, made.stderr)
            package, there = made.stdout.strip(), pathlib.Path(room, "there")
            run("dpkg-deb", "-x", package, str(there), check=True)
            self.check_programs(there)
            self.check_completions(there)
            if os.geteuid() == 0:
                told = run("chroot", f"{room}/image", "/rio9", "gen", "1")
                self.assertEqual((told.returncode, told.stdout[:9]), (0, "events 10"))
            if shutil.which("lintian"):
                told = run("lintian", "--allow-root", package)
                self.assertEqual((told.returncode, told.stdout), (0, ""))

    def check_programs(self, there):
        """The launcher finds the program beside it, and the fixture is known to pytest by its entry point."""
        modules = there / "usr/lib/python3/dist-packages"
        environment = {**os.environ, "PYTHONPATH": str(modules)}
        environment.pop("RIO9_PROGRAM", None)
        words = [str(there / "usr/bin/rio9d"), "replay", "--size", "64x48", str(ROOT / "examples/first.record")]
        told = run(*words, env=environment)
        self.assertEqual(
            (told.returncode, told.stdout), (0, (ROOT / "examples/first.replies").read_text()), told.stderr
        )
        entries = next(modules.glob("rio9-*.dist-info/entry_points.txt")).read_text()
        self.assertIn("[pytest11]\nrio9 = rio9.pytest_plugin", entries)

    def check_completions(self, there):
        script = (
            'for name in rio9 rio9d; do . "usr/share/bash-completion/completions/$name"; done; '
            "COMP_WORDS=(rio9 re) COMP_CWORD=1; _rio9; echo ${COMPREPLY[@]}; "
            "COMP_WORDS=(rio9d serve --rec) COMP_CWORD=2; _rio9d; echo ${COMPREPLY[@]}"
        )
        modules = there / "usr/lib/python3/dist-packages"
        environment = {**os.environ, "PATH": f"{there}/usr/bin:{os.environ['PATH']}", "PYTHONPATH": str(modules)}
        told = run("bash", "-c", script, cwd=there, env=environment)
        self.assertEqual(told.stdout, "replay\n--record\n", told.stderr)

    def test_wrong_words(self):
        for words, line in (([], "a folder"), (["/tmp", "/none"], "there is no program /none")):
            told = run(str(ROOT / "tools" / "package.sh"), *words)
            self.assertEqual((told.returncode, told.stderr.count("\n")), (2, 1))
            self.assertIn(line, told.stderr)


if __name__ == "__main__":
    unittest.main()
