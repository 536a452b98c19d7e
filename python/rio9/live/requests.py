"""What a page asks by its WebSocket, each a JSON object with a field `kind`; anything else is refused."""

import json
from dataclasses import dataclass
from typing import Any, Callable, Dict, Union

from rio9.live.acts import MOST_SNARF, Act, Keys, Mouse, PutSnarf, Repaint, Resize
from rio9.live.screen import MOST_SIDE, Point

FARTHEST, MOST_BUTTONS, MOST_KEYS = 1 << 20, 31, 4096
MOST_BYTES = 6 * MOST_SNARF + 1024  # a character of a snarf may take six in JSON
LAST_FRAME = 2**53


class BadRequest(Exception):
    """What a page sent is no request. It tells why."""


@dataclass(frozen=True)
class Shown:
    """The page has shown the frame of a number."""

    frame: int


@dataclass(frozen=True)
class Visible:
    """Somebody can see the page, or not."""

    is_seen: bool


@dataclass(frozen=True)
class WantSnarf:
    """The snarf buffer is wanted."""


@dataclass(frozen=True)
class Anew:
    """The recording is to begin anew."""


Request = Union[Act, Shown, Visible, WantSnarf, Anew]


def number(found: Dict[str, Any], name: str, least: int, most: int) -> int:
    """A number of a request."""
    value = found.get(name)
    if type(value) is not int or not least <= value <= most:
        raise BadRequest(f"{name} is a number from {least} to {most}")
    return value


def text(found: Dict[str, Any], most: int) -> str:
    """The text of a request, of at most so many bytes."""
    value = found.get("text")
    if not isinstance(value, str):
        raise BadRequest("a text is wanted")
    try:
        size = len(value.encode())
    except UnicodeEncodeError:
        raise BadRequest("the text has half a character") from None
    if size > most:
        raise BadRequest(f"the text has {size} bytes, and at most {most} are taken")
    return value


def keys(found: Dict[str, Any]) -> Act:
    """Characters that are typed."""
    typed = text(found, MOST_KEYS)
    if not typed or "\0" in typed:
        raise BadRequest("keys are characters other than 0")
    return Keys(typed)


def mouse(found: Dict[str, Any]) -> Act:
    """An event of the mouse."""
    point = Point(number(found, "x", -FARTHEST, FARTHEST), number(found, "y", -FARTHEST, FARTHEST))
    return Mouse(point, number(found, "buttons", 0, MOST_BUTTONS))


def visible(found: Dict[str, Any]) -> Visible:
    """Whether the page can be seen."""
    value = found.get("is")
    if not isinstance(value, bool):
        raise BadRequest("is is true or false")
    return Visible(value)


KINDS: Dict[str, Callable[[Dict[str, Any]], Request]] = {
    "mouse": mouse,
    "keys": keys,
    "put": lambda found: PutSnarf(text(found, MOST_SNARF)),
    "get": lambda found: WantSnarf(),
    "size": lambda found: Resize(number(found, "width", 1, MOST_SIDE), number(found, "height", 1, MOST_SIDE)),
    "repaint": lambda found: Repaint(),
    "shown": lambda found: Shown(number(found, "frame", 0, LAST_FRAME)),
    "visible": visible,
    "anew": lambda found: Anew(),
}

# What a page that only watches may ask.
WATCHING = (Shown, Visible)


def read_request(data: str) -> Request:
    """The request that a text is."""
    try:
        found = json.loads(data)
    except (ValueError, RecursionError):
        raise BadRequest("no JSON") from None
    kind = found.get("kind") if isinstance(found, dict) else None
    if not isinstance(kind, str) or kind not in KINDS:
        raise BadRequest(f"no such kind: {str(kind)[:40]}")
    return KINDS[kind](found)
