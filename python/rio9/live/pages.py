"""The live page, put together from live.html and from the script of the player that makes pictures of frames."""

import html
import re
from pathlib import Path

from rio9.live.recording import PLAYER

HERE = Path(__file__).resolve().parent
HOSTS = re.compile(r"(127\.[0-9.]+|localhost|\[::1\])(:[0-9]{1,5})?")  # names of this machine
PICTURES = re.compile(r'<script id="pictures">(.*?)</script>', re.DOTALL)


def live_page(nonce: str) -> str:
    """The live page, whose scripts and styles have a number that its policy names."""
    found = PICTURES.search(PLAYER.read_text(encoding="utf-8"))
    if found is None:
        raise ValueError(f"{PLAYER} has no script for pictures")
    page = (HERE / "live.html").read_text(encoding="utf-8")
    return page.replace("PICTURES", found[1]).replace("NONCE", nonce)


def refusal_page(what: str, then: str) -> str:
    """A page that tells what is wrong, and what to do then."""
    page = (HERE / "refusal.html").read_text(encoding="utf-8")
    return page.replace("WHAT", html.escape(what)).replace("THEN", html.escape(then))
