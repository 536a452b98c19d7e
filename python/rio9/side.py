"""The file beside a record, NAME.json for a record NAME: what the record does not tell of itself.

It has the display's size and channels, when the server began, and for each second in which something came from a
client the number of its first entry and the time of that.
"""

import bisect
import json
import os
from dataclasses import dataclass, field
from datetime import datetime, timedelta, timezone
from pathlib import Path
from typing import List, Optional, Tuple

from rio9 import program

FORMAT = "rio9d 1"
MOST_BYTES = 1 << 26


class BadSide(Exception):
    """A file beside a record that is none. It tells the file, why, and what to do."""


@dataclass
class Side:
    """What stands beside a record. `seconds` has an entry's number, counted from 1, and its milliseconds after the
    start, both ascending. `entries` is how many the record has, or None while it is being written or where its server
    was ended by force."""

    size: Tuple[int, int]
    channels: str
    start: datetime
    entries: Optional[int] = None
    seconds: List[Tuple[int, int]] = field(default_factory=list)

    def milliseconds_of(self, entry: int) -> int:
        """When an entry came: the time of the last one before it that is known, 0 before all of them."""
        at = bisect.bisect_right(self.seconds, (entry, 1 << 62))
        return self.seconds[at - 1][1] if at else 0

    def time_of(self, entry: int) -> datetime:
        """When an entry came, by the clock."""
        return self.start + timedelta(milliseconds=self.milliseconds_of(entry))

    def text(self) -> str:
        """What the file has."""
        told = {
            "format": FORMAT,
            "size": program.size_text(self.size),
            "channels": self.channels,
            "start": self.start.isoformat(timespec="milliseconds"),
            "entries": self.entries,
            "seconds": self.seconds,
        }
        return json.dumps(told) + "\n"

    def save(self, record: str) -> None:
        """Writes the file beside a record, whole or not at all."""
        path = side_path(record)
        new = path.with_name(path.name + ".new")
        new.write_text(self.text(), encoding="utf-8")
        os.replace(new, path)


def side_path(record: str) -> Path:
    """Where the file of a record stands."""
    return Path(record + ".json")


def now() -> datetime:
    """The time, to the millisecond."""
    return datetime.now(timezone.utc)


def is_pair(value: object) -> bool:
    """Whether a value is a pair of numbers, none of them negative."""
    return isinstance(value, list) and len(value) == 2 and all(type(each) is int and each >= 0 for each in value)


def read_side(text: str) -> Side:
    """What a text of such a file tells; ValueError tells why it is none."""
    told = json.loads(text)
    if not isinstance(told, dict) or told.get("format") != FORMAT:
        raise ValueError(f"its format is not {FORMAT!r}")
    for name in ("size", "channels", "start"):
        if not isinstance(told.get(name), str):
            raise ValueError(f"{name} is no text")
    start = datetime.fromisoformat(told["start"])
    entries, pairs = told.get("entries"), told.get("seconds", [])
    if not (entries is None or type(entries) is int and entries >= 0):
        raise ValueError("entries is no number")
    if not isinstance(pairs, list) or not all(map(is_pair, pairs)) or start.tzinfo is None:
        raise ValueError("seconds are no pairs of numbers, or the start has no zone")
    seconds = [(entry, after) for entry, after in pairs]
    if any(here > there for one, next_one in zip(seconds, seconds[1:]) for here, there in zip(one, next_one)):
        raise ValueError("seconds do not ascend")
    return Side(program.size(told["size"]), program.channels(told["channels"]), start, entries, seconds)


def load(record: str) -> Optional[Side]:
    """What stands beside a record; None where no such file is there."""
    path = side_path(record)
    try:
        with open(path, encoding="utf-8") as file:
            text = file.read(MOST_BYTES + 1)
        if len(text) > MOST_BYTES:
            raise ValueError(f"it has more than {MOST_BYTES} bytes")
        return read_side(text)
    except FileNotFoundError:
        return None
    except (ValueError, RecursionError) as error:
        raise BadSide(f"{path} is no file of a record: {error}; remove it, and say --size and --chan") from None
