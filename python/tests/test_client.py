"""Tests of rio9.client: what it sends and takes, byte for byte as the examples spell it, and its commands before a
small server."""

import contextlib
import io
import pathlib
import socket
import tempfile
import threading
import unittest

from rio9 import client, client_commands, formats, record
from test_picture import IMAGE_FILE, pixels_of

EXAMPLES = pathlib.Path(__file__).resolve().parent.parent.parent / "examples"


def reply(kind, tag, body=b""):
    return (7 + len(body)).to_bytes(4, "little") + bytes([kind]) + tag.to_bytes(2, "little") + body


def error(tag, text):
    return reply(107, tag, record.STRING.put(text))


def counted(data, size):
    return len(data).to_bytes(size, "little") + data


class Server(threading.Thread):
    """Listens on the loopback, and attends to one connection after the other until it is closed."""

    def __init__(self):
        super().__init__(daemon=True)
        self.listener = socket.create_server(("127.0.0.1", 0))
        self.address = self.listener.getsockname()

    def __enter__(self):
        self.start()
        return self

    def __exit__(self, *_):
        self.listener.shutdown(socket.SHUT_RDWR)
        self.listener.close()
        self.join(5)

    def run(self):
        with contextlib.suppress(OSError):
            while True:
                with self.listener.accept()[0] as connection:
                    self.attend(connection)

    def messages(self, connection):
        stream = connection.makefile("rb")
        while len(head := stream.read(4)) == 4:
            yield head + stream.read(int.from_bytes(head, "little") - 4)


class Spelled(Server):
    """Answers what an example's record has, message by message, by what its replies have, cut into pieces of some
    bytes."""

    def __init__(self, example, pieces):
        super().__init__()
        events = formats.read_record((EXAMPLES / f"{example}.record").read_bytes())
        replies = formats.read_replies((EXAMPLES / f"{example}.replies").read_bytes()).messages
        self.asked = [event.message for event in events if event.kind == formats.MESSAGE]
        self.answers, self.pieces, self.got = [message for _, message in replies], pieces, []

    def attend(self, connection):
        connection.setsockopt(socket.IPPROTO_TCP, socket.TCP_NODELAY, 1)
        for message in self.messages(connection):
            self.got.append(message)
            answer = self.answers[len(self.got) - 1]
            for at in range(0, len(answer), self.pieces):
                connection.sendall(answer[at : at + self.pieces])


class Sends(Server):
    """Answers anything by the same bytes, and closes."""

    def __init__(self, data):
        super().__init__()
        self.data = data

    def attend(self, connection):
        connection.recv(1)
        connection.sendall(self.data)


DIRECTORIES = {"": ["draw", "wsys"], "wsys": ["1"]}


class Files(Server):
    """A tree of files. Reads of `cons`, `wctl` and `mouse` take what stands for them in a list, and wait where
    nothing does."""

    def __init__(self):
        super().__init__()
        self.files = {"label": b"a label", "screen": IMAGE_FILE, "wsys/1/window": IMAGE_FILE, "draw/1/data": b"\1\2"}
        self.files["draw/new"] = b"          1 ".ljust(144)
        self.files["hwsize"] = b"        640         480 "
        self.waiting = {"cons": [b"one\n", b"two\n"], "wsys/1/wctl": [b"a rectangle"]}
        self.places, self.written, self.names = ("kbdin", "mousein", "wctl", "snarf"), [], list(DIRECTORIES["wsys"])

    def attend(self, connection):
        fids = {}
        for message in self.messages(connection):
            found, values, payload = record.read_message(message)
            answer = getattr(self, found.name)(fids, values, payload)
            if answer is not None:
                connection.sendall(
                    answer if isinstance(answer, bytes) else reply(found.kind + 1, values["tag"], *answer)
                )

    def known(self, path):
        return path in self.files or path in self.waiting or path in self.places or path in DIRECTORIES

    def Tversion(self, _fids, values, _payload):
        return (record.LONG.put(values["msize"]) + record.STRING.put("9P2000"),)

    def Tattach(self, fids, values, _payload):
        if values["aname"] not in ("", "1"):
            return error(values["tag"], "unknown id in attach")
        fids[values["fid"]] = ""
        return (bytes(13),)

    def Twalk(self, fids, values, _payload):
        path = "/".join(filter(None, [fids[values["fid"]], *values["names"]]))
        if not self.known(path):
            return error(values["tag"], "file does not exist")
        fids[values["newfid"]] = path
        return (record.SHORT.put(len(values["names"])) + bytes(13 * len(values["names"])),)

    def Topen(self, fids, values, _payload):
        if fids[values["fid"]] in self.places and values["mode"] == client.READ:
            return error(values["tag"], "permission denied")
        return (bytes(17),)

    def Tread(self, fids, values, _payload):
        path, begin = fids[values["fid"]], values["offset"]
        if path in self.waiting:
            return (counted(self.waiting[path].pop(0), 4),) if self.waiting[path] else None
        if path in DIRECTORIES:
            names = self.names if path == "wsys" else DIRECTORIES[path]
            data = b"".join(stat_bytes(name, name in DIRECTORIES) for name in names)
        else:
            data = self.files[path]
        return (counted(data[begin : begin + values["count"]], 4),)

    def Twrite(self, fids, values, payload):
        path = fids[values["fid"]]
        if payload == b"dance":
            return error(values["tag"], "bad wctl command")
        if path == "wctl" and payload.startswith(b"new"):
            self.names.append("2")
        self.written.append((path, values["offset"], payload))
        return (record.LONG.put(len(payload)),)

    def Tclunk(self, fids, values, _payload):
        del fids[values["fid"]]
        return ()

    def Tstat(self, fids, values, _payload):
        path = fids[values["fid"]]
        return (counted(stat_bytes(path.rpartition("/")[2] or "/", path in DIRECTORIES), 2),)

    def Tflush(self, _fids, _values, _payload):
        return ()


def stat_bytes(name, is_directory):
    qid = bytes([0x80 if is_directory else 0]) + bytes(12)
    mode = client.DIRECTORY | 0o555 if is_directory else 0o600
    body = (
        bytes(6)
        + qid
        + mode.to_bytes(4, "little")
        + bytes(16)
        + b"".join(map(record.STRING.put, (name, "r", "r", "r")))
    )
    return counted(body, 2)


def ready(server, seconds=5):
    """A session with a server, with a version and a root."""
    found = client.Client(server.address, seconds)
    found.version()
    return found, found.attach()


class Sessions(unittest.TestCase):
    def test_version_and_attach_are_spelled_as_in_the_example(self):
        for pieces in (1, 3, 1000):
            with self.subTest(pieces), Spelled("first", pieces) as server, client.Client(server.address, 5) as session:
                self.assertEqual(session.version(), 65560)
                self.assertEqual(session.attach(user="u"), 0)
                self.assertEqual(server.got, server.asked)

    def test_walks_are_spelled_as_in_the_example(self):
        with Spelled("walk", 5) as server, client.Client(server.address, 5) as session:
            session.version()
            session.attach()
            with self.assertRaisesRegex(client.Refused, "^file does not exist$"):
                session.walk(0, ["draw", "nope"])
            with self.assertRaisesRegex(client.Refused, "^unknown fid$"):
                session.stat(1)
            with self.assertRaisesRegex(client.Refused, "^file does not exist$"):
                session.walk(0, ["nope"])
            self.assertEqual(session.walk(0, ["draw", ".."]), 1)
            self.assertEqual(session.walk(0, ["draw", ".."]), 2)
            self.assertEqual(server.got, server.asked[: len(server.got)])

    def test_reads_that_wait(self):
        with Files() as server:
            session, root = ready(server)
            with session, session.file(root, "cons") as cons:
                tags = [session.ask_read(cons.fid) for _ in range(3)]
                self.assertEqual([session.answer(tag)[1] for tag in reversed(tags[:2])], [b"two\n", b"one\n"])
                with self.assertRaises(client.Late):
                    session.answer(tags[2], 0.01)
                self.assertEqual(session.stat(root)["name"], "/")
                self.assertTrue(session.flush(tags[2]))
                server.waiting["cons"] = [b"three\n"]
                tag = session.ask_read(cons.fid)
                session.stat(root)
                self.assertFalse(session.flush(tag))
                self.assertEqual(session.answer(tag)[1], b"three\n")

    def test_long_writes_are_cut(self):
        with Files() as server:
            session, root = ready(server)
            with session, session.file(root, "snarf", client.WRITE) as snarf:
                snarf.write(b"x" * 65600)
                snarf.write(b"")
            self.assertEqual([(at, len(data)) for _, at, data in server.written], [(0, 65537), (65537, 63), (65600, 0)])

    def test_what_is_no_reply(self):
        version = (EXAMPLES / "first.replies").read_bytes().split(b"\n")[0].split(b" ")[2]
        good = bytes.fromhex(version.decode())
        cases = [
            (b"", "ended"),
            (good[:-1], "ended"),
            (bytes(7), "no reply"),
            (b"\xff" * 7, "4294967295 bytes"),
            (good.replace(b"\x65", b"\x69", 1), "no reply"),
            (good.replace(b"\xff\xff", b"\1\0"), "no reply"),
            (good.replace(b"9P2000", b"unknow"), "speaks 'unknow'"),
            (good.replace(b"\x18\0\1\0", b"\x19\0\1\0"), "speaks '9P2000'"),
        ]
        for data, told in cases:
            with self.subTest(data.hex()), Sends(data) as server, client.Client(server.address, 5) as session:
                with self.assertRaisesRegex(client.Broken, told):
                    session.version()


def command(server, *words):
    """Status, output and line on err of a command."""
    out, err = io.TextIOWrapper(io.BytesIO()), io.StringIO()
    with contextlib.redirect_stdout(out), contextlib.redirect_stderr(err):
        try:
            status = client_commands.main(["--seconds", "5", f"127.0.0.1:{server.address[1]}", *words])
        except SystemExit as end:
            status = end.code
    return status, out.buffer.getvalue(), err.getvalue()


MOUSE = "m{:11} {:11} {:11} "
LOADED = b"y" + bytes.fromhex("01000000 00000000 00000000 04000000 01000000 ff00")


class Commands(unittest.TestCase):
    def test_what_is_printed(self):
        cases = [
            (["ls"], b"draw\nwsys\n"),
            (["ls", "wsys/"], b"1\n"),
            (["ls", "label"], b"label\n"),
            (
                ["stat", "/wsys"],
                b"type=0 dev=0 qid=directory:0 mode=0x8000016d atime=0 mtime=0 length=0 name=wsys uid=r gid=r muid=r\n",
            ),
            (["cat", "label"], b"a label"),
            (["cat", "--count", "2", "--reads", "2", "label"], b"a la"),
            (["cat", "cons"], b"one\n"),
            (["cat", "wsys/1/wctl"], b"a rectangle"),
            (["new", "-hide"], b"2\n"),
            (["draw", "v", "r id=0 r=0,0,2,1"], b"\1\2"),
            (["draw", "v"], b""),
        ]
        with Files() as server:
            for words, told in cases:
                with self.subTest(words):
                    self.assertEqual(command(server, *words), (0, told, ""))

    def test_what_is_written(self):
        cases = [
            (["write", "label", "two", "-words"], [("label", 0, b"two -words")]),
            (["wctl", "move", "-minx", "4", "-id", "1"], [("wctl", 0, b"move -minx 4 -id 1")]),
            (["new", "-r", "1", "2", "30", "40"], [("wctl", 0, b"new -r 1 2 30 40")]),
            (["type", r"a \"b\"", r'"\u00e4\n'], [("kbdin", 0, 'a "b" "ä\n'.encode())]),
            (["type", "k" * 65], [("kbdin", 0, b"k" * 64), ("kbdin", 64, b"k")]),
            (["draw", "v", "y id=1 r=0,0,4,1", "hex ff00", "v"], [("draw/1/data", 0, b"v" + LOADED + b"v")]),
        ]
        for words, written in cases:
            with self.subTest(words), Files() as server:
                self.assertEqual(command(server, *words)[::2], (0, ""))
                self.assertEqual(server.written, written)

    def test_clicks(self):
        for words, events in (
            (["3", "4"], [(3, 4, 1), (3, 4, 0)]),
            (["3", "4", "5", "6", "--button", "3"], [(3, 4, 4), (5, 6, 4), (5, 6, 0)]),
        ):
            with self.subTest(words), Files() as server:
                self.assertEqual(command(server, "click", *words), (0, b"", ""))
                self.assertEqual(
                    [data[:37] for _, _, data in server.written], [MOUSE.format(*event).encode() for event in events]
                )
                self.assertEqual({len(data) for _, _, data in server.written}, {49})

    def test_screen(self):
        with tempfile.TemporaryDirectory() as room, Files() as server:
            for words in (["screen", f"{room}/out.png"], ["screen", f"{room}/out.png", "--window", "1"]):
                self.assertEqual(command(server, *words), (0, b"", ""))
                png = pathlib.Path(room, "out.png").read_bytes()
                self.assertEqual(pixels_of(png), (2, 1, bytes.fromhex("000000 ffffff")))

    def test_one_line_tells_what_is_wrong(self):
        cases = [
            (["cat", "nope"], 1, "rio9d client: cat nope: file does not exist"),
            (["cat", "kbdin"], 1, "rio9d client: cat kbdin: permission denied"),
            (["wctl", "dance"], 1, "rio9d client: wctl dance: bad wctl command"),
            (["cat", "no\npe"], 1, "rio9d client: cat no pe: file does not exist"),
            (["cat", "x" * 99], 1, f"rio9d client: cat {'x' * 54}..: file does not exist"),
            (["wctl"], 2, "window command"),
            (["cat"], 2, "path"),
            (["dance"], 2, "dance"),
            (["click", "1"], 2, "two numbers"),
            (["click", "640", "3"], 1, "rio9d client: (640,3) is outside of the display, which has 640x480 points"),
            (["click", "5", "5", "3", "-1"], 1, "(3,-1) is outside"),
            (["cat", "wsys"], 1, "wsys is a directory: `ls wsys` tells what it has"),
            (["screen", "a.jpg"], 2, "name it .png, and not a.jpg"),
            (["click", "1", "2", "--button", "6"], 2, "6"),
            (["type", r"\q"], 2, "JSON"),
            (["draw", "v", "n id=1"], 2, "line 2, word 1 `n`"),
            (["screen", str(EXAMPLES / "not-there" / "a.png")], 2, "not-there"),
        ]
        with Files() as server:
            for words, status, told in cases:
                with self.subTest(words):
                    got, out, err = command(server, *words)
                    self.assertEqual((got, out, err.count("\n")), (status, b"", 1), err)
                    self.assertIn(told, err)
            with self.subTest("a read that waits too long"):
                server.waiting["cons"] = []
                words = ["--seconds", "0.01", f"127.0.0.1:{server.address[1]}", "cat", "cons"]
                err = io.StringIO()
                with contextlib.redirect_stderr(err):
                    self.assertEqual(client_commands.main(words), 1)
                self.assertEqual(err.getvalue(), "rio9d client: no answer within 0.01 seconds\n")

    def test_addresses(self):
        self.assertEqual(client.address_of("[::1]:564"), ("::1", 564))
        self.assertEqual(client.address_of("host:5640"), ("host", 5640))
        for text in ("host", "host:", ":564", "a:b:564", "host:0", "host:65536", "[]:1"):
            with self.subTest(text), self.assertRaises(client_commands.argparse.ArgumentTypeError):
                client.address_of(text)
        with socket.create_server(("127.0.0.1", 0)) as taken:
            port = taken.getsockname()[1]
        err = io.StringIO()
        with contextlib.redirect_stderr(err):
            self.assertEqual(client_commands.main([f"127.0.0.1:{port}", "ls"]), 1)
        self.assertTrue(err.getvalue().startswith(f"rio9d client: no connection to 127.0.0.1:{port}: "), err.getvalue())


if __name__ == "__main__":
    unittest.main()
