"""Runs the tests of the live page by another Python of the machine, if this one lacks aiohttp."""

import pathlib
import unittest

import elsewhere

HERE = pathlib.Path(__file__).resolve().parent


@unittest.skipUnless(elsewhere.missing("aiohttp"), "this Python runs the tests itself")
class Elsewhere(elsewhere.Elsewhere):
    def test_server(self):
        self.run_file(str(HERE / "test_live_server.py"), "aiohttp")

    def test_browser(self):
        self.run_file(str(HERE / "test_live_browser.py"), "aiohttp")


if __name__ == "__main__":
    unittest.main()
