"""The command `rio9d live`, which serves the live page."""

import argparse
import re
from typing import List

from rio9.live.pages import HOSTS
from rio9.live.repaint import parser_of

MOST_KEPT = 1024


def place_of(text: str) -> "tuple[str, int]":
    """The host and port at which the page is served, which are of the loopback; port 0 is a free one."""
    found = re.fullmatch(r"(\[::1\]|[^:]+):([0-9]{1,5})", text)
    if not found or int(found[2]) > 65535 or not HOSTS.fullmatch(found[1]):
        raise argparse.ArgumentTypeError(
            f"no address of the loopback, as 127.0.0.1:8009: {text}; "
            "whoever has the page has the desktop, so from elsewhere use ssh -L"
        )
    return found[1].strip("[]"), int(found[2])


def kept_of(text: str) -> int:
    """How many megabytes are kept."""
    if not re.fullmatch(r"[1-9][0-9]{0,3}", text) or int(text) > MOST_KEPT:
        raise argparse.ArgumentTypeError(f"no number of megabytes from 1 to {MOST_KEPT}: {text}")
    return int(text)


def live_main(words: List[str]) -> int:
    """Serves a page that shows a desktop and drives it, until it is interrupted."""
    parser = parser_of(
        "live", "Serves a page, on this machine alone, that shows the desktop of a server and drives it."
    )
    parser.add_argument(
        "--listen",
        type=place_of,
        default=("127.0.0.1", 0),
        metavar="HOST:PORT",
        help="where the page is served, on the loopback; else 127.0.0.1 and a free port",
    )
    parser.add_argument("--view-only", action="store_true", help="no page may drive the desktop")
    parser.add_argument(
        "--keep", type=kept_of, default=64, metavar="MB", help="how much of the recording for Save is kept; else 64"
    )
    options = parser.parse_args(words)
    from rio9.live.attend import run  # here, since this needs aiohttp and the words do not

    return run(options)
