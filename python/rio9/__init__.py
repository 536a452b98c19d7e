"""Tests, watches and records desktops of rio9: a launcher, a client, a display in the process, records, pictures, and a
fixture for pytest.

Each module has one subject; `rio9d` (rio9.commands) runs them as commands. The client and the records need the standard
library alone. The package is outside the proof: it shares nothing with the proved program, but `rio9.Display`, which is
the library of it (rio9.display). `rio9.Client` is a client over TCP or of such a display (rio9.client).
"""

from typing import TYPE_CHECKING, Any

if TYPE_CHECKING:
    from rio9.client import Client as Client
    from rio9.display import Display as Display

__version__ = "0.9.0"
HOLDS = {"Client": "rio9.client", "Display": "rio9.display"}


def __getattr__(name: str) -> Any:
    """What the package offers by itself; its module is loaded when it is first asked for."""
    import importlib

    if name not in HOLDS:
        raise AttributeError(f"module {__name__!r} has no attribute {name!r}")
    return getattr(importlib.import_module(HOLDS[name]), name)
