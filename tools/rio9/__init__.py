"""The package of python/rio9, found from the tools beside this folder without an installation."""

from pathlib import Path

__path__ = [str(Path(__file__).resolve().parents[2] / "python" / "rio9")]
