"""Writes session records from readable lines, and explains records and reply lines in such lines.

    rio9d write < shapes.txt > shapes.record
    rio9d explain < shapes.record
    rio9d explain < shapes.replies

What explain gives for a record is what write takes, and write gives the same record back, byte for byte.
Explained replies are for reading alone. Both refuse what is no record, as the program does, and tell the line and
the word at fault: status 1. Wrong options are status 2. This tool is outside the proof: it shares nothing with the
program, and nothing in it is proved. Needs: Python 3.9 or later, its standard library.

The readable lines. A word that begins with `#` begins a comment.

    session 1                                       session 1 begins
    1 Tversion msize=65560 version=9P2000           it sends a message of intro(5): the fields by name
    1 Twalk fid=0 newfid=1 draw new                 a list stands last, its members as words
    1 Twrite tag=7 fid=2 offset=0 mark=1            memory runs out after one draw message
        d dstid=0 srcid=5 maskid=1 dstr=0,0,10,10 srcp=0,0 maskp=0,0
        y id=5 r=0,0,4,1                            the bytes of a write stand beneath it, indented: messages
        hex 000000ff 0000ff00                       of draw(3), bytes in hex, and text
        text "ab\\n"
        mouse point=20,12 buttons=1 msec=100        an event of the mouse, as mouse(3) spells it
    1 hex 0700000064ffff                            any bytes as a message, its size first
    1 take                                          what waits for session 1 is taken
    1 end                                           session 1 ends
    stop                                            memory runs out for good

Fields have the names of docs/FORMATS.md. What may be left out: a tag that is 1, or NOTAG in Tversion; afid NOFID;
uname ""; a mark. Text of other characters than letters, digits and ._/+:- stands in quotation marks, as in JSON. A
number may be hex, with 0x. A rectangle is its left, upper, right and lower edge; a point x and y; channels are as
x8r8g8b8 (image(6)); an operator is its name in draw(2) or its number.

A write's bytes do not tell what they are for. Explain follows the walks and opens of a session, believing each
that can succeed, and shows the writes to a file named `data` as draw messages up to the first bytes that are
none. The rows behind `y` are cut by the channels that the image was made with; those of the display are the
option --chan C (x8r8g8b8). So the words for a write may be wrong where a session was refused something; its
bytes are exact in any case.
"""

import argparse
import json
import re
import sys
from dataclasses import dataclass
from typing import Any, Callable, Dict, Iterable, List, Optional, Sequence, Tuple

from rio9 import formats
from rio9.formats import BEGIN, END, MESSAGE, STOP, TAKE, BadEvent, BadText, Event

# The values of fields by name, and a draw connection: its session and its number.
Values = Dict[str, Any]
Connection = Tuple[int, str]

# Bytes to values: what fields take theirs from.


class NotWhole(Exception):
    """The bytes end too early, or spell no such thing."""


class Cursor:
    """A place in bytes."""

    def __init__(self, data: bytes) -> None:
        self.data, self.at = data, 0

    def take(self, count: int) -> bytes:
        """The next bytes."""
        begin, end = self.at, self.at + count
        if end > len(self.data):
            raise NotWhole
        self.at = end
        return self.data[begin:end]

    def number(self, size: int, signed: bool = False) -> int:
        """The number that the next bytes are, the lowest first."""
        return int.from_bytes(self.take(size), "little", signed=signed)

    def left(self) -> int:
        """How many bytes are left."""
        return len(self.data) - self.at


# Fields: how they stand in bytes and in words.


@dataclass(frozen=True)
class Form:
    """How a value stands in bytes (take, put) and in a word (say, hear). What is no value raises ValueError."""

    take: Callable[[Cursor], Any]
    put: Callable[[Any], bytes]
    say: Callable[[Any], str]
    hear: Callable[[str], Any]


def number(size: int, signed: bool = False, hexadecimal: bool = False, words: Optional[Dict[int, str]] = None) -> Form:
    """A number of some bytes; `words` names some of its values."""
    names = words or {}
    values = {word: value for value, word in names.items()}
    digits = f"0x{{:0{2 * size}x}}" if hexadecimal else "{}"

    def hear(word: str) -> int:
        return values[word] if word in values else hear_number(word)

    return Form(
        take=lambda cursor: cursor.number(size, signed),
        put=lambda value: number_bytes(value, size, signed),
        say=lambda value: names.get(value) or digits.format(value),
        hear=hear,
    )


def hear_number(word: str) -> int:
    """The number that a word is."""
    if not re.fullmatch(r"-?(0x[0-9a-f]{1,16}|0|[1-9][0-9]{0,19})", word):
        raise ValueError("a number is wanted")
    return int(word, 0)


def number_bytes(value: int, size: int, signed: bool = False) -> bytes:
    """A number as so many bytes."""
    try:
        return value.to_bytes(size, "little", signed=signed)
    except OverflowError:
        raise ValueError(f"{value} does not fit in {size} bytes") from None


def numbers(count: int) -> Form:
    """As many signed numbers of four bytes, with commas between: a point or a rectangle."""

    def hear(word: str) -> Tuple[int, ...]:
        values = tuple(hear_number(part) for part in word.split(","))
        if len(values) != count:
            raise ValueError(f"{count} numbers with commas between are wanted")
        return values

    return Form(
        take=lambda cursor: tuple(cursor.number(4, True) for _ in range(count)),
        put=lambda values: b"".join(number_bytes(value, 4, True) for value in values),
        say=lambda values: ",".join(map(str, values)),
        hear=hear,
    )


def text(size: int, errors: str = "strict") -> Form:
    """A text behind its length of `size` bytes. In 9P it is UTF-8; the errors of a draw name go through as they are."""

    def take(cursor: Cursor) -> str:
        try:
            return cursor.take(cursor.number(size)).decode("utf-8", errors)
        except UnicodeDecodeError:
            raise NotWhole from None

    def put(value: str) -> bytes:
        try:
            data = value.encode("utf-8", errors)
        except UnicodeEncodeError:
            raise ValueError("the text has half a character, which UTF-8 has not") from None
        if len(data) >= 256**size:
            raise ValueError(f"the text has {len(data)} bytes, and at most {256**size - 1} fit")
        return number_bytes(len(data), size) + data

    return Form(take, put, say_text, hear_text)


PLAIN_WORD = re.compile(r"[A-Za-z0-9._/+:-]+")


def say_text(value: str) -> str:
    """A text as a word."""
    if PLAIN_WORD.fullmatch(value):
        return value
    printable = re.sub(r"[\n\t]", "", value).isprintable()
    return json.dumps(value, ensure_ascii=not printable)


def hear_text(word: str) -> str:
    """The text that a word is."""
    try:
        return str(json.loads(word)) if word.startswith('"') else word
    except ValueError:
        raise ValueError("a text in quotation marks is written as in JSON") from None


def say_qid(value: Tuple[int, int]) -> str:
    """A qid as a word: its kind and its path."""
    return f"{'directory' if value[0] == 0x80 else 'file' if value[0] == 0 else value[0]}:{value[1]}"


def take_qid(cursor: Cursor) -> Tuple[int, int]:
    """The kind and the path of a qid."""
    kind, _, path = cursor.number(1), cursor.number(4), cursor.number(8)
    return kind, path


def only_read(_value: object) -> Any:
    """Of what is read and never written."""
    raise ValueError("a qid is read, and not written")


def say_channels(word: int) -> str:
    """Channels as a word."""
    return formats.channels_text(word) or f"0x{word:08x}"


def hear_channels(word: str) -> int:
    """The channels that a word is."""
    return hear_number(word) if word[0].isdigit() else formats.channels_word(word)


OPERATORS = ["Clear", "DoutS", "SoutD", "DxorS", "DinS", "D", "DatopS", "DoverS", "SinD", "SatopD", "S", "SoverD"]
NOTAG, NOFID = 0xFFFF, 0xFFFFFFFF
NO_IMAGE = -1

BYTE, SHORT, LONG, HUGE = number(1), number(2), number(4), number(8)
SIGNED_BYTE = number(1, signed=True)
TAG, FID = number(2, words={NOTAG: "NOTAG"}), number(4, words={NOFID: "NOFID"})
MODE = number(1, words={0: "read", 1: "write", 2: "readwrite"})
BITS, COLOUR = number(4, hexadecimal=True), number(4, hexadecimal=True)
OPERATOR = number(1, words=dict(enumerate(OPERATORS)))
CHANNELS = Form(LONG.take, LONG.put, say_channels, hear_channels)
POINT, RECTANGLE = numbers(2), numbers(4)
STRING, NAME, LONG_TEXT = text(2), text(1, "surrogateescape"), text(4)
QID = Form(take_qid, only_read, say_qid, only_read)

REQUIRED = object()


@dataclass(frozen=True)
class Field:
    """A field of a message. `usual` is its value where it is left out; of a list `count` names the field that
    tells how many it has, and `most` is how many it may have."""

    name: str
    form: Form
    usual: object = REQUIRED
    count: Optional[str] = None
    most: int = 0xFFFF


Fields = Sequence[Field]


def shown(fields: Fields) -> List[Field]:
    """The fields that stand in words: all but those that count a list."""
    counts = {field.count for field in fields}
    return [field for field in fields if field.name not in counts]


def take_fields(fields: Fields, cursor: Cursor) -> Values:
    """The values of fields, by name."""
    values: Values = {}
    for field in fields:
        if field.count is None:
            values[field.name] = field.form.take(cursor)
        elif values[field.count] <= field.most:
            values[field.name] = [field.form.take(cursor) for _ in range(values[field.count])]
        else:
            raise NotWhole
    return values


def put_fields(fields: Fields, values: Values) -> bytes:
    """The bytes of fields."""
    values = dict(values)
    for field in fields:
        if field.count is not None:
            values[field.count] = len(values[field.name])
    lists = [values[field.name] if field.count else [values[field.name]] for field in fields]
    return b"".join(field.form.put(value) for field, members in zip(fields, lists) for value in members)


def say_fields(fields: Fields, values: Values) -> List[str]:
    """The words of fields; a list's members come last."""
    words, members = [], []
    for field in shown(fields):
        value = values[field.name]
        if field.count is not None:
            members += [field.form.say(member) for member in value]
        elif field.usual is REQUIRED or value != field.usual:
            words.append(f"{field.name}={field.form.say(value)}")
    return words + members


class BadWord(ValueError):
    """A word of a readable line that is at fault, and why."""

    def __init__(self, word: "Word", why: object) -> None:
        super().__init__(why)
        self.word = word


def hear_fields(fields: Fields, name: "Word", words: Sequence["Word"]) -> Values:
    """The values that words give to the fields of what `name` names."""
    given: Dict[str, Word] = {}
    members = [word for word in words if word.key is None]
    values: Values = {}
    for word in words:
        if word.key in given:
            raise BadWord(word, f"{word.key} stands twice")
        if word.key is not None:
            given[word.key] = word
    for field in shown(fields):
        if field.count is not None:
            if len(members) > field.most:
                raise BadWord(members[field.most], f"{name.value} has at most {field.most} {field.name}")
            values[field.name], members = [hear_word(field.form, word) for word in members], []
        elif field.name in given:
            values[field.name] = hear_word(field.form, given.pop(field.name))
        elif field.usual is not REQUIRED:
            values[field.name] = field.usual
        else:
            raise BadWord(name, f"{field.name} is missing")
    for extra in [*given.values(), *members]:
        raise BadWord(extra, f"{name.value} has no such field")
    return values


def hear_word(form: Form, word: "Word") -> Any:
    """The value of a word, which fits its field."""
    try:
        value = form.hear(word.value)
        form.put(value)
        return value
    except ValueError as error:
        raise BadWord(word, error) from None


# The messages of 9P2000 (intro(5)).


@dataclass(frozen=True)
class Message:
    """A message of 9P2000. Behind its fields it may have bytes; `data` is the size of their count."""

    name: str
    kind: int
    fields: Tuple[Field, ...]
    data: int = 0


T_MESSAGES = [
    Message("Tversion", 100, (Field("msize", LONG), Field("version", STRING))),
    Message("Tauth", 102, (Field("afid", FID), Field("uname", STRING, ""), Field("aname", STRING))),
    Message(
        "Tattach",
        104,
        (Field("fid", FID), Field("afid", FID, NOFID), Field("uname", STRING, ""), Field("aname", STRING)),
    ),
    Message("Tflush", 108, (Field("oldtag", TAG),)),
    Message(
        "Twalk",
        110,
        (Field("fid", FID), Field("newfid", FID), Field("n", SHORT), Field("names", STRING, count="n", most=16)),
    ),
    Message("Topen", 112, (Field("fid", FID), Field("mode", MODE))),
    Message("Tcreate", 114, (Field("fid", FID), Field("name", STRING), Field("perm", BITS), Field("mode", MODE))),
    Message("Tread", 116, (Field("fid", FID), Field("offset", HUGE), Field("count", LONG))),
    Message("Twrite", 118, (Field("fid", FID), Field("offset", HUGE)), data=4),
    Message("Tclunk", 120, (Field("fid", FID),)),
    Message("Tremove", 122, (Field("fid", FID),)),
    Message("Tstat", 124, (Field("fid", FID),)),
    Message("Twstat", 126, (Field("fid", FID),), data=2),
]

R_MESSAGES = [
    Message("Rversion", 101, (Field("msize", LONG), Field("version", STRING))),
    Message("Rattach", 105, (Field("qid", QID),)),
    Message("Rerror", 107, (Field("ename", STRING),)),
    Message("Rflush", 109, ()),
    Message("Rwalk", 111, (Field("n", SHORT), Field("qids", QID, count="n"))),
    Message("Ropen", 113, (Field("qid", QID), Field("iounit", LONG))),
    Message("Rread", 117, (), data=4),
    Message("Rwrite", 119, (Field("count", LONG),)),
    Message("Rclunk", 121, ()),
    Message("Rstat", 125, (), data=2),
]

BY_KIND = {message.kind: message for message in T_MESSAGES + R_MESSAGES}
BY_NAME = {message.name: message for message in T_MESSAGES}

STAT = (
    Field("type", SHORT),
    Field("dev", LONG),
    Field("qid", QID),
    Field("mode", BITS),
    Field("atime", LONG),
    Field("mtime", LONG),
    Field("length", HUGE),
    Field("name", STRING),
    Field("uid", STRING),
    Field("gid", STRING),
    Field("muid", STRING),
)


MARK = Field("mark", SHORT, None)


def line_fields(message: Message) -> Fields:
    """The fields of a message's line: its own, its tag, and the mark where memory runs out."""
    tag = Field("tag", TAG, NOTAG if message.name in ("Tversion", "Rversion") else 1)
    return (tag, *message.fields, MARK)


def read_message(data: bytes) -> Optional[Tuple[Message, Values, bytes]]:
    """The message that bytes spell, the values of its line, and its data; None where they spell none."""
    cursor = Cursor(data)
    try:
        size, kind, tag = cursor.number(4), cursor.number(1), cursor.number(2)
        message = BY_KIND.get(kind)
        if message is None or size != len(data):
            return None
        values = take_fields(message.fields, cursor)
        payload = cursor.take(cursor.number(message.data)) if message.data else b""
    except NotWhole:
        return None
    return (message, {"tag": tag, "mark": None, **values}, payload) if cursor.left() == 0 else None


def write_message(message: Message, values: Values, payload: bytes) -> bytes:
    """The bytes of a message."""
    body = put_fields(message.fields, values)
    if message.data:
        body += number_bytes(len(payload), message.data) + payload
    return number_bytes(7 + len(body), 4) + bytes([message.kind]) + number_bytes(values["tag"], 2) + body


# The messages of the draw device (draw(3)).

STRING_FIELDS = (
    Field("dstid", LONG),
    Field("srcid", LONG),
    Field("fontid", LONG),
    Field("p", POINT),
    Field("clipr", RECTANGLE),
    Field("sp", POINT),
    Field("n", SHORT),
)
INDICES = Field("indices", SHORT, count="n")
ID = Field("id", LONG)

LETTERS: Dict[str, Tuple[Field, ...]] = {
    # Makes an image, or a window on a screen.
    "b": (
        ID,
        Field("screenid", LONG),
        Field("refresh", BYTE),
        Field("chan", CHANNELS),
        Field("repl", BYTE),
        Field("r", RECTANGLE),
        Field("clipr", RECTANGLE),
        Field("color", COLOUR),
    ),
    # Makes an image a screen.
    "A": (ID, Field("imageid", LONG), Field("fillid", LONG), Field("public", BYTE)),
    # Sets repl and the clip rectangle.
    "c": (Field("dstid", LONG), Field("repl", BYTE), Field("clipr", RECTANGLE)),
    # Draws.
    "d": (
        Field("dstid", LONG),
        Field("srcid", LONG),
        Field("maskid", LONG),
        Field("dstr", RECTANGLE),
        Field("srcp", POINT),
        Field("maskp", POINT),
    ),
    # Switches messages for finding faults on and off.
    "D": (Field("debug", BYTE),),
    # Frees an image id, and a screen id.
    "f": (ID,),
    "F": (ID,),
    # Makes an image a font.
    "i": (ID, Field("n", LONG), Field("ascent", BYTE)),
    # Loads a character into a font.
    "l": (
        Field("cacheid", LONG),
        Field("srcid", LONG),
        Field("index", SHORT),
        Field("r", RECTANGLE),
        Field("sp", POINT),
        Field("left", SIGNED_BYTE),
        Field("width", BYTE),
    ),
    # Ties a name to an image, or unties it.
    "N": (ID, Field("in", BYTE), Field("name", NAME)),
    # Makes an id for a named image.
    "n": (ID, Field("name", NAME)),
    # Moves a window.
    "o": (ID, Field("rmin", POINT), Field("scr", POINT)),
    # Sets the operator of the next drawing.
    "O": (Field("op", OPERATOR),),
    # Reads pixels.
    "r": (ID, Field("r", RECTANGLE)),
    # Draws a string, and a string on a background.
    "s": (*STRING_FIELDS, INDICES),
    "x": (*STRING_FIELDS, Field("bgid", LONG), Field("bgp", POINT), INDICES),
    # Makes an id for a public screen.
    "S": (ID, Field("chan", CHANNELS)),
    # Moves windows to the top or the bottom.
    "t": (Field("top", BYTE), Field("n", SHORT), Field("ids", LONG, count="n")),
    # Shows what was drawn.
    "v": (),
    # Writes pixels; their rows stand behind it.
    "y": (ID, Field("r", RECTANGLE)),
}


# Writing records.

WORD = re.compile(r'(?:([a-z]+)=)?("(?:[^"\\]|\\.)*"|[^\s"#=]+)(?=\s|$)')


@dataclass(frozen=True)
class Word:
    """A word of a line: its place, counted from 1, as it stands there, its key or None, and its value."""

    place: int
    shown: str
    key: Optional[str]
    value: str


def words_of(line: str) -> List[Word]:
    """The words of a line, without the comment."""
    rest = line.strip()
    words: List[Word] = []
    while rest and not rest.startswith("#"):
        found = WORD.match(rest)
        if not found:
            shown = rest.split()[0]
            raise BadWord(Word(len(words) + 1, shown, None, shown), "this is no word")
        words.append(Word(len(words) + 1, found[0], *found.groups()))
        rest = rest[found.end() :].lstrip()
    return words


@dataclass
class Block:
    """A line that is not indented, the bytes that stand beneath it, and where these begin."""

    line: int
    words: List[Word]
    payload: bytes = b""
    first: Optional[Tuple[int, Word]] = None


@dataclass
class Heard:
    """The event of a block, and the words of it that may be at fault: by the part of the event that they tell."""

    event: Event
    parts: Dict[str, Any]


def write(readable: str) -> bytes:
    """The record of readable lines. Of several mistakes it tells the first."""
    blocks: List[Block] = []
    mistakes: List[BadText] = []
    for line, content in enumerate(readable.split("\n"), 1):
        try:
            words = words_of(content)
            if words and not content[0].isspace():
                blocks.append(Block(line, words))
            elif words:
                add_payload(blocks, line, words)
        except BadWord as error:
            mistakes.append(bad_text(line, error))
    try:
        events = events_of(blocks)
    except BadText as mistake:
        mistakes.append(mistake)
    if mistakes:
        raise min(mistakes, key=lambda mistake: mistake.line)
    return formats.write_record(events)


def events_of(blocks: Iterable[Block]) -> List[Event]:
    """The events of blocks, which together are a record."""
    roll, size = formats.Roll(), len(formats.HEADER) + 1
    events: List[Event] = []
    for block in blocks:
        events.append(event_of(block, roll))
        size += len(formats.event_line(events[-1])) + 1
        if size >= formats.BYTES_OF_NO_RECORD:
            raise BadText(block.line, f"with this line the record has {formats.BYTES_OF_NO_RECORD} bytes or more")
    return events


def bad_text(line: int, error: BadWord) -> BadText:
    """The mistake of a word of a line."""
    return BadText(line, error, error.word.place, error.word.shown)


def add_payload(blocks: List[Block], line: int, words: List[Word]) -> None:
    """Adds the bytes of an indented line to the message above it."""
    if not blocks:
        raise BadWord(words[0], "an indented line belongs to the message above it")
    blocks[-1].payload += payload_of(words)
    blocks[-1].first = blocks[-1].first or (line, words[0])


def payload_of(words: List[Word]) -> bytes:
    """The bytes of an indented line."""
    first, rest = words[0], words[1:]
    if first.key is None and first.value in LETTERS:
        fields = LETTERS[first.value]
        return first.value.encode() + put_fields(fields, hear_fields(fields, first, rest))
    if first.key is None and first.value == "mouse":
        return mouse_text(hear_fields(MOUSE_FIELDS, first, rest))
    if first.key is not None or first.value not in ("hex", "text"):
        raise BadWord(first, "a draw message, hex, text or mouse is wanted")
    for word in rest:
        if word.key is not None:
            raise BadWord(word, f"{first.value} has no fields")
    if first.value == "hex":
        return hex_bytes(rest)
    return "".join(hear_word(LONG_TEXT, word) for word in rest).encode()


# An event of the mouse (mouse(3)): a point of the display, the buttons that are down, and a time.
MOUSE_FIELDS = (Field("point", POINT), Field("buttons", BYTE), Field("msec", LONG))


def mouse_text(event: Values) -> bytes:
    """The bytes of an event: a letter and four numbers, each 11 wide and a blank."""
    return ("m" + "".join(f"{n:11} " for n in (*event["point"], event["buttons"], event["msec"]))).encode()


def mouse_line(payload: bytes) -> Optional[str]:
    """The line of bytes that are an event of the mouse, and of no others."""
    try:
        x, y, buttons, msec = (int(payload[at : at + 11]) for at in (1, 13, 25, 37))
        event = {"point": (x, y), "buttons": buttons, "msec": msec}
        put_fields(MOUSE_FIELDS, event)
    except (ValueError, NotWhole):
        return None
    return " ".join([INDENT + "mouse", *say_fields(MOUSE_FIELDS, event)]) if mouse_text(event) == payload else None


def hex_bytes(words: Sequence[Word]) -> bytes:
    """The bytes of words of hex digits, which may be cut anywhere."""
    for word in words:
        if not re.fullmatch(r"[0-9a-f]+", word.value):
            raise BadWord(word, "lower-case hex digits are wanted")
    digits = "".join(word.value for word in words)
    if len(digits) % 2:
        raise BadWord(words[-1], "the number of hex digits is odd")
    return bytes.fromhex(digits)


def event_of(block: Block, roll: formats.Roll) -> Event:
    """The event of a block, which may come next."""
    try:
        heard = hear_event(block.words, block.payload)
        try:
            roll.enter(heard.event)
        except BadEvent as error:
            raise BadWord(heard.parts.get(error.part, block.words[0]), error) from None
    except BadWord as error:
        raise bad_text(block.line, error) from None
    if block.first is not None and not heard.parts.get("bytes"):
        line, word = block.first
        raise bad_text(line, BadWord(word, "the line above has no bytes beneath it"))
    return heard.event


def hear_event(words: List[Word], payload: bytes) -> Heard:
    """The event that words tell, with the bytes that stand beneath them."""
    first, rest = words[0], words[2:]
    values = [word.value for word in words if word.key is None]
    if values == ["stop"] and len(words) == 1:
        return Heard(Event(STOP), {})
    if first.shown == "session" and len(words) == 2 and words[1].key is None:
        return Heard(Event(BEGIN, hear_word(LONG, words[1])), {"session": words[1]})
    if len(words) < 2 or first.key is not None or not first.value[0].isdigit():
        raise BadWord(first, "no event: session N, N Tmessage, N hex, N take, N end or stop is wanted")
    session, name = hear_word(LONG, first), words[1]
    parts: Dict[str, Any] = {"session": first, "message": name}
    if name.shown in ("take", "end"):
        for word in rest:
            raise BadWord(word, "the line goes on")
        return Heard(Event(TAKE if name.shown == "take" else END, session), parts)
    parts["mark"] = next((word for word in rest if word.key == "mark"), name)
    if name.shown == "hex":
        mark = hear_fields((MARK,), name, [word for word in rest if word.key])["mark"]
        return Heard(Event(MESSAGE, session, hex_bytes([word for word in rest if not word.key]), mark), parts)
    if name.shown not in BY_NAME:
        raise BadWord(name, "no event or message of this name")
    message = BY_NAME[name.shown]
    fields = hear_fields(line_fields(message), name, rest)
    if message.data == 2 and len(payload) > 0xFFFF:
        raise BadWord(name, f"{len(payload)} bytes stand beneath it, and at most 65535 fit")
    parts["bytes"] = message.data > 0
    return Heard(Event(MESSAGE, session, write_message(message, fields, payload), fields["mark"]), parts)


# Explaining.

INDENT = "    "
BYTES_ON_A_LINE = 64


@dataclass
class File:
    """What a fid is believed to be: the names from its attach on, and whether it is open."""

    names: Tuple[str, ...]
    is_open: bool = False

    def connection(self) -> Optional[str]:
        """The number of the draw connection whose data this is; None where it is no open data file."""
        if self.is_open and len(self.names) >= 2 and self.names[-1] == "data":
            return self.names[-2]
        return None


class Explainer:
    """What is believed of the sessions."""

    def __init__(self, display: int) -> None:
        self.display = display  # the channels of the display
        self.files: Dict[int, Dict[int, File]] = {}  # by session, files by fid
        self.images: Dict[Tuple[Connection, int], Optional[int]] = {}  # channels by connection and image id
        self.named: Dict[str, Optional[int]] = {}  # channels of named images


def explain(text: bytes, display: int = formats.channels_word(formats.USUAL_CHANNELS)) -> str:
    """The readable lines of a record, or of a run's output."""
    if formats.is_record(text):
        explainer = Explainer(display)
        lines = [line for event in formats.read_record(text) for line in explain_event(explainer, event)]
    else:
        lines = explain_replies(formats.read_replies(text))
    return "".join(line + "\n" for line in lines)


def explain_event(explainer: Explainer, event: Event) -> List[str]:
    """The readable lines of an event."""
    if event.kind == BEGIN:
        return [f"session {event.session}"]
    if event.kind == STOP:
        return ["stop"]
    if event.kind != MESSAGE:
        return [f"{event.session} {'take' if event.kind == TAKE else 'end'}"]
    found = read_message(event.message)
    if found is None or found[0] not in T_MESSAGES:
        mark = say_fields((MARK,), {"mark": event.mark})
        return [" ".join([str(event.session), "hex", *mark, event.message.hex()])]
    message, fields, payload = found
    line = message_line(event.session, message, {**fields, "mark": event.mark})
    file = follow(explainer, event.session, message.name, fields)
    connection = file.connection() if message.name == "Twrite" and file else None
    if connection is None:
        return [line, *payload_lines(payload, len(payload))]
    return [line, *draw_lines(explainer, (event.session, connection), payload)]


def message_line(session: int, message: Message, fields: Values) -> str:
    """The readable line of a message."""
    return " ".join([str(session), message.name, *say_fields(line_fields(message), fields)])


def follow(explainer: Explainer, session: int, name: str, fields: Values) -> Optional[File]:
    """Keeps what a message does to its session's fids where it succeeds. Gives the file of the message's fid."""
    files = explainer.files.setdefault(session, {})
    fid = fields.get("fid", NOFID)
    file = files.get(fid)
    if name == "Tversion":
        files.clear()
    elif name == "Tattach" and file is None:
        files[fid] = File(())
    elif name == "Twalk" and file is not None and not file.is_open:
        newfid, names = fields["newfid"], walked(file.names, fields["names"])
        if newfid == fid or newfid not in files:
            files[newfid] = File(names)
    elif name == "Topen" and file is not None:
        file.is_open = True
    elif name in ("Tclunk", "Tremove"):
        files.pop(fid, None)
    return file


def walked(names: Tuple[str, ...], steps: Iterable[str]) -> Tuple[str, ...]:
    """The names of what a walk leads to."""
    for step in steps:
        names = names[:-1] if step == ".." else (*names, step)
    return names


def payload_lines(payload: bytes, bytes_on_a_line: int) -> List[str]:
    """The lines of bytes that are no draw messages."""
    if not payload:
        return []
    event = mouse_line(payload)
    if event is not None:
        return [event]
    try:
        content = payload.decode()
        if re.sub(r"[\n\t]", "", content).isprintable():
            return [f"{INDENT}text {json.dumps(content, ensure_ascii=False)}"]
    except UnicodeDecodeError:
        pass
    return hex_lines(payload, bytes_on_a_line)


def hex_lines(data: bytes, bytes_on_a_line: int) -> List[str]:
    """The lines of bytes in hex."""
    return [f"{INDENT}hex {data[at : at + bytes_on_a_line].hex()}" for at in range(0, len(data), bytes_on_a_line)]


def draw_lines(explainer: Explainer, connection: Connection, payload: bytes) -> List[str]:
    """The lines of draw messages; what begins no whole one is shown in hex to its end."""
    lines: List[str] = []
    cursor = Cursor(payload)
    while cursor.left():
        begin = cursor.at
        letter = chr(cursor.number(1))
        try:
            fields = take_fields(LETTERS[letter], cursor)
        except (KeyError, NotWhole):
            return lines + hex_lines(payload[begin:], len(payload))
        lines.append(" ".join([INDENT + letter, *say_fields(LETTERS[letter], fields)]))
        keep_image(explainer, connection, letter, fields)
        if letter == "y":
            lines += take_rows(cursor, fields["r"], channels_of(explainer, connection, fields["id"]))
    return lines


def channels_of(explainer: Explainer, connection: Connection, image: int) -> Optional[int]:
    """The channels of a connection's image, None where they are not known. Image 0 is the display."""
    return explainer.display if image == 0 else explainer.images.get((connection, image))


def keep_image(explainer: Explainer, connection: Connection, letter: str, fields: Values) -> None:
    """Keeps what a draw message tells of the channels of images."""
    image, images = (connection, fields.get("id", NO_IMAGE)), explainer.images
    if letter == "b":
        images.setdefault(image, fields["chan"])
    elif letter == "N" and fields["in"]:
        explainer.named.setdefault(fields["name"], channels_of(explainer, *image))
    elif letter == "N":
        explainer.named.pop(fields["name"], None)
    elif letter == "n":
        is_window = fields["name"].startswith("window.")
        images.setdefault(image, explainer.display if is_window else explainer.named.get(fields["name"]))
    elif letter == "f":
        images.pop(image, None)


def take_rows(cursor: Cursor, r: Tuple[int, int, int, int], channels: Optional[int]) -> List[str]:
    """The rows behind a `y`, each on a line; all that is left where they cannot be cut."""
    left, upper, right, lower = r
    row = 0
    if channels is not None and formats.channels(channels):
        row = formats.row_bytes(formats.depth(channels), left, right)
    if row <= 0 or lower <= upper or row * (lower - upper) > cursor.left():
        return hex_lines(cursor.take(cursor.left()), len(cursor.data))
    return hex_lines(cursor.take(row * (lower - upper)), row)


def explain_replies(replies: formats.Replies) -> List[str]:
    """The readable lines of a run's output."""
    lines = []
    for session, data in replies.messages:
        found = read_message(data)
        if found is None or found[0] not in R_MESSAGES:
            lines.append(f"{session} hex {data.hex()}")
            continue
        message, fields, payload = found
        lines.append(message_line(session, message, fields))
        lines += stat_lines(payload) or payload_lines(payload, BYTES_ON_A_LINE)
    if replies.screen is not None:
        lines.append(
            f"screen of {len(replies.screen)} bytes: {' '.join(replies.screen[:60].decode(errors='replace').split())}"
        )
    return lines


def stat_lines(payload: bytes) -> List[str]:
    """The lines of stats (stat(5)), if the bytes are a stat or a list of them."""
    lines, cursor = [], Cursor(payload)
    try:
        while cursor.left():
            stat = Cursor(cursor.take(cursor.number(2)))
            lines.append(" ".join([INDENT + "stat", *say_fields(STAT, take_fields(STAT, stat))]))
            if stat.left():
                return []
    except NotWhole:
        return []
    return lines


def write_main(words: List[str]) -> int:
    """The command `rio9d write`."""
    parser = formats.Words(
        prog="rio9d write", description=__doc__, formatter_class=argparse.RawDescriptionHelpFormatter
    )
    parser.parse_args(words)
    return turn("rio9d write", lambda data: write(readable_text(data)))


def turn(name: str, made_of: Callable[[bytes], bytes], path: Optional[str] = None) -> int:
    """Writes what is made of a file, or of standard input, to standard output, and gives the status."""
    try:
        if path is None:
            data = sys.stdin.buffer.read()
        else:
            with open(path, "rb") as file:
                data = file.read()
        sys.stdout.buffer.write(made_of(data))
        sys.stdout.buffer.flush()
    except BadText as error:
        sys.stderr.write(f"{name}: {error}\n")
        return 1
    except OSError as error:
        formats.stop(name, formats.why_not(error))
    return 0


def readable_text(data: bytes) -> str:
    """The text that bytes are in UTF-8."""
    try:
        return data.decode()
    except UnicodeDecodeError as error:
        raise BadText(data.count(b"\n", 0, error.start) + 1, "no UTF-8") from None
