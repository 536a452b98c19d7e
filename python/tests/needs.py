"""What tests need that may not be there: the program rio9, its library, and other libraries, which another Python of the
machine may have."""

import functools
import shutil
import subprocess
import sys
import unittest

from rio9 import library, program


def found_program():
    """The program's path, or None."""
    try:
        return program.find()
    except program.Failure:
        return None


def found_library():
    """The path of the library of rio9, or None."""
    try:
        return library.find()
    except library.NoLibrary:
        return None


@functools.lru_cache(maxsize=None)
def python_with(*libraries):
    """A Python that has some libraries: this one, or Debian's own; None where neither has them."""
    words = "import " + ", ".join(libraries)
    for python in (sys.executable, shutil.which("python3", path="/usr/bin")):
        if python and subprocess.run([python, "-c", words], stderr=subprocess.DEVNULL).returncode == 0:
            return python
    return None


PROGRAM = found_program()
needs_program = unittest.skipIf(PROGRAM is None, f"there is no program rio9: build it, or name it by {program.TOLD_BY}")

LIBRARY = found_library()
needs_library = unittest.skipIf(LIBRARY is None, f"there is no {library.NAME}: install it, or name it by {library.TOLD_BY}")


def needs_libraries(*libraries):
    """Skips a test where no Python has some libraries."""
    why = f"no Python has {' and '.join(libraries)}: tools/setup_tests.sh installs what tests need"
    return unittest.skipIf(python_with(*libraries) is None, why)
