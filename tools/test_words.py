#!/usr/bin/env python3
"""Tests that each tool tells in one line what is wrong with its words, its files or its input, and ends with a status."""

import pathlib
import subprocess
import sys
import tempfile
import unittest

TOOLS = pathlib.Path(__file__).resolve().parent
EXAMPLES = TOOLS.parent / "examples"
FIRST = (EXAMPLES / "first.record").read_bytes()
NOT_THERE = str(EXAMPLES / "not-there" / "file")

# A tool and its words, its input, its status, and what the line names.
CASES = [
    ("soak.py", b"", 2, "PEER"),
    (f"soak.py {NOT_THERE} --program /bin/true", b"", 2, NOT_THERE),
    (f"soak.py /bin/true --program {NOT_THERE}", b"", 2, NOT_THERE),
    ("soak.py /bin/true --junk -1", b"", 2, "--junk"),
    ("text_soak.py --program /bin/true --cases 0", b"", 2, "--cases"),
    (f"text_soak.py --program {NOT_THERE}", b"", 2, NOT_THERE),
    (f"desk_soak.py --program {NOT_THERE}", b"", 2, NOT_THERE),
    ("clients/run.py --run nothing", b"", 2, "nothing"),
    (f"clients/run.py --program {NOT_THERE}", b"", 2, NOT_THERE),
    ("embedded.py", b"", 2, "PEER"),
    (f"embedded.py {NOT_THERE} {EXAMPLES}/first.record", b"", 2, NOT_THERE),
    (f"embedded.py /bin/true {NOT_THERE}", b"", 2, NOT_THERE),
    ("refused_memory.py --every 0", b"", 2, "0"),
    (f"refused_memory.py --program {NOT_THERE}", b"", 2, NOT_THERE),
]


class Lines(unittest.TestCase):
    def test_one_line_tells_what_is_wrong(self):
        with tempfile.TemporaryDirectory() as room:
            for words, given, status, told in CASES:
                tool, *rest = words.replace("OUT", f"{room}/out").split()
                with self.subTest(words):
                    run = subprocess.run([sys.executable, str(TOOLS / tool), *rest], input=given, capture_output=True)
                    line = run.stderr.decode()
                    self.assertEqual((run.returncode, run.stdout, line.count("\n")), (status, b"", 1), line)
                    self.assertTrue(line.startswith(f"{tool}: ") and told in line, line)


if __name__ == "__main__":
    unittest.main()
