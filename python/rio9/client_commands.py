"""The commands of a client (rio9.client), each of which asks a server.

    rio9d client 127.0.0.1:5640 new -r 16 16 176 128
    rio9d client 127.0.0.1:5640 draw 'n id=1 name=window.1.1' 'O op=Clear' \\
        'd dstid=1 srcid=1 maskid=1 dstr=40,40,80,60 srcp=40,40 maskp=40,40'
    rio9d client 127.0.0.1:5640 click 40 40
    rio9d client 127.0.0.1:5640 type 'hello\\n'
    rio9d client 127.0.0.1:5640 cat wsys/1/cons
    rio9d client 127.0.0.1:5640 screen screen.png

The words are [--attach NAME] [--seconds S] HOST:PORT COMMAND WORD.. with one of these commands. Each is a session of
its own, which attaches to the device tree, or to what --attach names, and ends before the command does.

    ls [-l] [PATH]              the names in a directory; with -l the stats (stat(5))
    stat [PATH]                 the stat of a file
    cat [--reads N] [--count N] PATH
                                what reads give, up to the first that gives nothing or to N of them, each of at most
                                so many bytes. Of cons, mouse, wctl and refresh, whose reads wait, it makes one where
                                nothing is said
    write PATH [TEXT..]         writes the text, words with a blank between, or standard input where there is none
    screen FILE.png [--window N] [--scale N]
                                the screen, or the image of a window, as a picture
    new [OPTION..]              a window (rio(4)), which stays until it is deleted; its number is printed
    wctl COMMAND [OPTION..]     a window command, as `move -minx 40 -id 1`
    type TEXT..                 keys: the text, in which \\n, \\b, \\t, \\\\ and \\uXXXX stand for what they do in JSON
    click X Y [X2 Y2] [--button N]
                                presses a button of the mouse and lets go, where four numbers stand after dragging it
    draw [LINE..]               draw messages on a new connection, one in each word, or in each line of standard
                                input, spelled as `rio9d write` takes them. Where the last one is `r` the bytes that it
                                asks for are printed

S is how long an answer may take: 10 seconds where nothing is said, and no limit for `cat` of a file whose reads wait.
A server with as many clients as workers answers a further one only when another ends.

Status 1 where the server refuses or does not answer, 2 where a word or a file is wrong; one line tells why. It is
outside the proof. Needs: Python 3.9 or later, its standard library alone.
"""

import argparse
import json
import re
import sys
from typing import Callable, Dict, Iterable, List, NoReturn, Optional, Sequence, Tuple

from rio9 import formats, picture, record
from rio9.client import (
    CTL_BYTES,
    DIRECTORY,
    READWRITE,
    SECONDS,
    WRITE,
    WRITE_HEAD,
    Broken,
    Client,
    Failure,
    File,
    Late,
    Refused,
    address_of,
    names_of,
    seconds_of,
    stat_line,
    writes_of,
)
from rio9.desktop import Desktop

NAME = "rio9d client"
WAITING = ("cons", "mouse", "wctl", "refresh")
READ_OF_DRAWING = "r"
MOST_TOLD = 60  # characters of a command that a refusal is told with

# What a command's words make: what is done with a session and the root of its tree.
Job = Callable[[Client, int], None]


def stop(why: object) -> NoReturn:
    """Ends the command, whose words are wrong."""
    formats.stop(NAME, why)


def parser_of(usage: str) -> formats.Words:
    """A reader of a command's words."""
    return formats.Words(prog=NAME, usage=f"rio9d client [--attach NAME] [--seconds S] HOST:PORT {usage}")


def positive(text: str) -> int:
    """A number from 1 on, as an option."""
    if not re.fullmatch(r"[1-9][0-9]{0,8}", text):
        raise argparse.ArgumentTypeError(f"no number from 1 on: {text}")
    return int(text)


def coordinate(text: str) -> int:
    """A coordinate of the display, as an option."""
    if not re.fullmatch(r"-?[0-9]{1,7}", text):
        raise argparse.ArgumentTypeError(f"no coordinate: {text}")
    return int(text)


def button_of(text: str) -> int:
    """A button of the mouse, as an option."""
    if not re.fullmatch(r"[1-5]", text):
        raise argparse.ArgumentTypeError(f"no button from 1 to 5: {text}")
    return int(text)


def put(data: bytes) -> None:
    """Writes bytes to standard output at once."""
    sys.stdout.buffer.write(data)
    sys.stdout.buffer.flush()


def put_lines(lines: Iterable[str]) -> None:
    """Writes lines to standard output."""
    put("".join(f"{line}\n" for line in lines).encode())


def text_bytes(words: Sequence[str]) -> bytes:
    """The bytes of words with a blank between."""
    return " ".join(words).encode(errors="surrogateescape")


def ls(words: List[str]) -> Job:
    """The command `ls`."""
    parser = parser_of("ls [-l] [PATH]")
    parser.add_argument("-l", action="store_true", dest="is_long")
    parser.add_argument("path", nargs="?", default="")
    options = parser.parse_args(words)

    def job(client: Client, root: int) -> None:
        own = client.stat(client.walk(root, names_of(options.path)))
        stats = client.list(root, options.path) if own["mode"] & DIRECTORY else [own]
        put_lines(stat_line(stat) if options.is_long else stat["name"] for stat in stats)

    return job


def stat(words: List[str]) -> Job:
    """The command `stat`."""
    parser = parser_of("stat [PATH]")
    parser.add_argument("path", nargs="?", default="")
    names = names_of(parser.parse_args(words).path)
    return lambda client, root: put_lines([stat_line(client.stat(client.walk(root, names)))])


def cat(words: List[str]) -> Job:
    """The command `cat`."""
    parser = parser_of("cat [--reads N] [--count N] PATH")
    parser.add_argument("--reads", type=positive, metavar="N")
    parser.add_argument("--count", type=positive, metavar="N")
    parser.add_argument("path")
    options = parser.parse_args(words)
    waits = names_of(options.path)[-1:] and names_of(options.path)[-1] in WAITING

    def job(client: Client, root: int) -> None:
        left = options.reads or (1 if waits else None)
        check_no_directory(client, root, options.path)
        with client.file(root, options.path) as file:
            while left is None or left > 0:
                data = read_in_time(client, file, options.count) if waits else file.read(options.count)
                if not data and not waits:
                    break
                put(data)
                left = None if left is None else left - 1

    return job


def check_no_directory(client: Client, root: int, path: str) -> None:
    """Refuses a directory, whose bytes are no text."""
    fid = client.walk(root, names_of(path))
    mode = client.stat(fid)["mode"]
    client.clunk(fid)
    if mode & DIRECTORY:
        raise Failure(f"{path} is a directory: `ls {path}` tells what it has")


def read_in_time(client: Client, file: File, count: Optional[int]) -> bytes:
    """What a read that may wait gives. It is taken back where it takes longer than the words allow."""
    tag = client.ask_read(file.fid, file.at, count)
    try:
        return client.answer(tag, client.patience)[1]
    except Late:
        if client.flush(tag):
            raise
        return client.answer(tag)[1]


def write(words: List[str]) -> Job:
    """The command `write`."""
    parser = parser_of("write PATH [TEXT..]")
    parser.add_argument("path")
    parser.add_argument("text", nargs=argparse.REMAINDER)
    options = parser.parse_args(words)
    data = text_bytes(options.text) if options.text else sys.stdin.buffer.read()
    return lambda client, root: write_file(client, root, options.path, data)


def write_file(client: Client, root: int, path: str, data: bytes) -> None:
    """Writes to a file of a tree."""
    with client.file(root, path, WRITE) as file:
        file.write(data)


def png_name(text: str) -> str:
    """The name of a picture, as an option."""
    if not text.lower().endswith(".png"):
        raise argparse.ArgumentTypeError(f"the picture is a PNG file, so name it .png, and not {text}")
    return text


def screen(words: List[str]) -> Job:
    """The command `screen`."""
    parser = parser_of("screen FILE.png [--window N] [--scale N]")
    parser.add_argument("out", type=png_name, metavar="FILE.png")
    parser.add_argument("--window", type=positive, metavar="N")
    parser.add_argument("--scale", type=picture.scale_of, default=1, metavar="N")
    options = parser.parse_args(words)

    def job(client: Client, root: int) -> None:
        with client.file(root, "screen" if options.window is None else f"wsys/{options.window}/window") as file:
            data = file.read_all()
        try:
            png = picture.picture(*picture.read_image_file(data), options.scale)
        except (picture.NoPicture, ValueError) as error:
            raise Broken(f"what came is no picture: {error}") from None
        with open(options.out, "wb") as out:
            out.write(png)

    return job


def new(words: List[str]) -> Job:
    """The command `new`."""

    def job(client: Client, root: int) -> None:
        put_lines([str(Desktop.of(client, root).command_new(" ".join(words)))])

    return job


def wctl(words: List[str]) -> Job:
    """The command `wctl`."""
    if not words:
        stop("a window command is wanted, as move -minx 40 -id 1")
    return lambda client, root: write_file(client, root, "wctl", text_bytes(words))


def keys_of(text: str) -> str:
    """The keys that a text stands for."""
    try:
        return str(json.loads('"' + re.sub(r'(?<!\\)((?:\\\\)*)"', r'\1\\"', text) + '"', strict=False))
    except ValueError:
        stop("what stands behind a \\ is as in JSON: \\n, \\b, \\t, \\\\ or \\uXXXX")


def type_keys(words: List[str]) -> Job:
    """The command `type`."""
    if not words:
        stop("a text is wanted")
    keys = keys_of(" ".join(words))

    return lambda client, root: Desktop.of(client, root).type(keys)


def click(words: List[str]) -> Job:
    """The command `click`."""
    parser = parser_of("click X Y [X2 Y2] [--button N]")
    parser.add_argument("numbers", nargs="+", type=coordinate, metavar="X Y")
    parser.add_argument("--button", type=button_of, default=1, metavar="N")
    options = parser.parse_args(words)
    if len(options.numbers) not in (2, 4):
        parser.error("two numbers are wanted, or four")
    points = [(options.numbers[at], options.numbers[at + 1]) for at in range(0, len(options.numbers), 2)]
    return lambda client, root: Desktop.of(client, root).drag(points[0], points[-1], options.button)


def draw(words: List[str]) -> Job:
    """The command `draw`."""
    groups, is_read = draw_groups(words or sys.stdin.read().split("\n"))

    def job(client: Client, root: int) -> None:
        with client.file(root, "draw/new", READWRITE) as ctl:
            number = ctl.read(CTL_BYTES)[:11].decode().strip()
            with client.file(root, f"draw/{number}/data", READWRITE) as data:
                for piece in writes_of(groups, client.msize - WRITE_HEAD):
                    client.write(data.fid, piece)
                if is_read:
                    put(client.read(data.fid))

    return job


def draw_groups(lines: Iterable[str]) -> Tuple[List[bytes], bool]:
    """The bytes of draw messages, each with the rows that stand beneath it, and whether the last one is `r`."""
    groups: List[bytes] = []
    last = ""
    for number, line in enumerate(lines, 1):
        try:
            words = record.words_of(line)
            data = record.payload_of(words) if words else b""
        except record.BadWord as error:
            raise record.bad_text(number, error) from None
        if words and (words[0].value in record.LETTERS or not groups):
            groups.append(data)
            last = words[0].value
        elif words:
            groups[-1] += data
    return groups, last == READ_OF_DRAWING


COMMANDS: Dict[str, Callable[[List[str]], Job]] = {
    **{command.__name__: command for command in (ls, stat, cat, write, screen, new, wctl, click, draw)},
    "type": type_keys,
}


def asked(options: argparse.Namespace) -> str:
    """What the server refused: the command and its words, in one line."""
    told = " ".join(" ".join([options.command, *options.words]).split())
    return told if len(told) <= MOST_TOLD else told[: MOST_TOLD - 2] + ".."


def run(options: argparse.Namespace, job: Job) -> None:
    """Does a command's job in a session of its own."""
    with Client(options.address, options.seconds or SECONDS) as client:
        client.patience = options.seconds
        client.version()
        job(client, client.attach(options.attach))


def main(words: List[str]) -> int:
    """The command `rio9d client`."""
    parser = formats.Words(prog=NAME, description=__doc__, formatter_class=argparse.RawDescriptionHelpFormatter)
    parser.add_argument("--attach", default="", metavar="NAME", help="the name of the tree to attach to")
    parser.add_argument("--seconds", type=seconds_of, metavar="S", help="how long an answer may take")
    parser.add_argument("address", type=address_of, metavar="HOST:PORT", help="where the server listens")
    parser.add_argument("command", choices=sorted(COMMANDS), metavar="COMMAND", help=", ".join(sorted(COMMANDS)))
    parser.add_argument("words", nargs=argparse.REMAINDER, metavar="WORD", help="the command's own words")
    options = parser.parse_args(words)
    try:
        run(options, COMMANDS[options.command](options.words))
    except Refused as error:
        sys.stderr.write(f"rio9d client: {asked(options)}: {error}\n")
        return 1
    except (Failure, ValueError) as error:
        sys.stderr.write(f"rio9d client: {error}\n")
        return 1
    except formats.BadText as error:
        stop(error)
    except OSError as error:
        stop(formats.why_not(error))
    except KeyboardInterrupt:
        return 130
    return 0
