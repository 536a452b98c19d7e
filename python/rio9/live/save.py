"""The command `rio9d save`: a record as one page that plays by itself, with the times at which its entries came."""

import subprocess
import sys
import tempfile
import zlib
from pathlib import Path
from typing import IO, List, Optional, Tuple

from rio9 import formats, program, side
from rio9.live.recording import MOST_FRAMES, saved_page
from rio9.replays import display_of, parser_of, why_no_record

PIECE = 1 << 20
SECOND, USUAL = 1000, 100  # milliseconds; those of an entry whose time is not known

Times = List[Tuple[int, int]]


class TooLong(Exception):
    """A record has more frames than a page plays. It tells so."""


def times_of(beside: Optional[side.Side], entries: int) -> Times:
    """When the entries of a record came, as pairs between which the player goes evenly: of each second the first one
    and the last one. Without a file beside the record ten come in a second."""
    if beside is None or not beside.seconds:
        return [(0, 0), (max(entries, 1), max(entries, 1) * USUAL)]
    first = beside.seconds[0][1]
    pairs = [(entry, time - first) for entry, time in beside.seconds if 0 < entry <= entries]
    found: Times = [(0, 0)]
    for (entry, time), (after, _) in zip(pairs, [*pairs[1:], (entries + 1, 0)]):
        for place, when in ((entry, time), (after - 1, time + SECOND - 1)):
            if place > found[-1][0]:
                found.append((place, max(when, found[-1][1])))
    return found


def packed(frames: IO[bytes]) -> bytes:
    """Frames, compressed."""
    packer, made, count = zlib.compressobj(zlib.Z_BEST_COMPRESSION), bytearray(), 0
    for piece in iter(lambda: frames.read(PIECE), b""):
        count += len(piece)
        if count > MOST_FRAMES:
            raise TooLong(
                f"its frames have more than {MOST_FRAMES >> 20} MB, which no page plays: save a shorter record"
            )
        made += packer.compress(piece)
    return bytes(made) + packer.flush()


def mirrored(path: str, words: List[str], rio9: str) -> bytes:
    """The frames of `mirror` of a record, compressed."""
    with open(path, "rb") as given, tempfile.TemporaryFile() as told:
        running = subprocess.Popen([rio9, "mirror", *words], stdin=given, stdout=subprocess.PIPE, stderr=told)
        assert running.stdout is not None
        try:
            found = packed(running.stdout)
        except TooLong:
            running.kill()
            raise
        finally:
            running.stdout.close()
            code = running.wait()
        told.seek(0)
        why = told.read(PIECE).decode(errors="replace").strip()
    if code == program.BAD_RECORD:
        raise program.Failure(why_no_record(path), code)
    if code != program.DONE:
        raise program.Failure(why or f"rio9 ended by {program.why_status(code)}", program.status_of(code))
    return found


def entries_of(path: str) -> int:
    """How many entries a record has."""
    with open(path, "rb") as file:
        return max(sum(piece.count(b"\n") for piece in iter(lambda: file.read(PIECE), b"")) - 1, 0)


def save(record: str, page: str, size: Optional[Tuple[int, int]], chan: Optional[str], told: Optional[str]) -> None:
    """Writes the page of a record."""
    beside = side.load(record)
    display, channels = display_of(record, size, chan)
    frames = mirrored(record, program.display_words(display, channels), program.find(told))
    title = Path(record).name + (f", {beside.start.astimezone():%Y-%m-%d %H:%M}" if beside else "")
    text = saved_page(title, channels, times_of(beside, entries_of(record)), frames)
    with open(page, "w", encoding="utf-8") as file:
        file.write(text)


def main(words: List[str]) -> int:
    """The command `rio9d save`."""
    parser = parser_of("save")
    parser.description = __doc__
    parser.add_argument("page", metavar="PAGE.html", help="the page that is written")
    options = parser.parse_args(words)
    if formats.is_one_of(options.page, (options.record, str(side.side_path(options.record)))):
        parser.error(f"{options.page} is read, and would be lost: name another file for the page")
    try:
        save(options.record, options.page, options.size, options.chan, options.program)
    except (program.Failure, side.BadSide, TooLong) as failure:
        sys.stderr.write(f"rio9d save: {failure}\n")
        return int(getattr(failure, "status", program.USAGE))
    except OSError as error:
        sys.stderr.write(f"rio9d save: {formats.why_not(error)}\n")
        return program.READ_FAULT
    return program.DONE
