"""Tests of the launcher: rio9d serve, replay, mirror, alone and explain, with the program where it is there."""

import contextlib
import io
import json
import os
import pathlib
import re
import signal
import socket
import subprocess
import sys
import tempfile
import time
import unittest
from unittest import mock

from needs import PROGRAM, needs_program
from rio9 import client, program, replays, serve, server, side, systemd

PYTHON = pathlib.Path(__file__).resolve().parent.parent
EXAMPLES = PYTHON.parent / "examples"
SECONDS = 30
NO_PROGRAM = str(EXAMPLES / "first.record")
JUNK = str(EXAMPLES / "not-there")


class Launched:
    """A `rio9d serve` that runs, in a folder of its own."""

    def __init__(self, room, *words):
        self.record, self.errors = f"{room}/a.record", open(f"{room}/err", "w+b")
        command = [
            sys.executable,
            str(PYTHON / "rio9d"),
            "serve",
            "--listen",
            "127.0.0.1:0",
            "--record",
            self.record,
            *words,
        ]
        self.process = subprocess.Popen(command, stdout=subprocess.PIPE, stderr=self.errors)
        told = re.fullmatch(rb"listening 127\.0\.0\.1:([0-9]+)\n", self.process.stdout.readline())
        assert told, self.lines()
        self.address = "127.0.0.1", int(told[1])

    def __enter__(self):
        return self

    def __exit__(self, *_):
        self.process.kill()
        self.process.wait()
        self.process.stdout.close()
        self.errors.close()

    def lines(self):
        self.errors.seek(0)
        return self.errors.read().decode().splitlines()

    def end(self, number):
        self.process.send_signal(number)
        return self.process.wait(SECONDS)


def session_at(address, name=""):
    session = client.Client(address, SECONDS)
    session.version()
    return session, session.attach(name)


def ended(command, *words):
    """Status, output and lines on err of a command."""
    run = subprocess.run(
        [sys.executable, str(PYTHON / "rio9d"), command, *words], capture_output=True, stdin=subprocess.DEVNULL
    )
    return run.returncode, run.stdout, run.stderr.decode()


@needs_program
class Serves(unittest.TestCase):
    def setUp(self):
        folder = tempfile.TemporaryDirectory()
        self.addCleanup(folder.cleanup)
        self.room = folder.name

    def test_a_signal_ends_it_in_order(self):
        """Its record is whole and gives each client just what it got, also where one waits for an answer and one is
        in the middle of a message."""
        for number in (signal.SIGTERM, signal.SIGINT):
            room = tempfile.mkdtemp(dir=self.room)
            with self.subTest(number), Launched(room, "--size", "320x240") as launched:
                session, root = session_at(launched.address, "new -r 10 10 200 150")
                waits = session.ask_read(session.file(root, "cons").fid)
                reader, top = session_at(launched.address)
                screen = reader.file(top, "screen").read_all()
                half = socket.create_connection(launched.address, SECONDS)
                half.sendall(bytes.fromhex("1300000064ffff18000100"))
                time.sleep(0.1)
                self.assertEqual(launched.end(number), 0, launched.lines())
                with self.assertRaises(client.Broken):
                    session.answer(waits)
                for each in (session, reader, half):
                    each.close()
                self.check_record(launched, screen)
                self.assertTrue(any("session 3: cut" in line for line in launched.lines()))

    def check_record(self, launched, screen):
        lines = pathlib.Path(launched.record).read_bytes().splitlines()
        begun, over = ([line[2:] for line in lines if line.startswith(kind)] for kind in (b"B ", b"E "))
        self.assertEqual((begun, sorted(over)), ([b"1", b"2", b"3"], [b"1", b"2", b"3"]))
        beside = side.load(launched.record)
        self.assertEqual((beside.size, beside.channels, beside.entries), ((320, 240), "x8r8g8b8", len(lines) - 1))
        self.assertGreaterEqual(beside.seconds[0][0], 2)
        status, replies, _ = ended("replay", launched.record)
        self.assertEqual(status, 0)
        got = [bytes.fromhex(line.split()[2].decode()) for line in replies.splitlines() if line.startswith(b"R 2 ")]
        self.assertIn(screen[:1000], b"".join(message[11:] for message in got))

    def test_a_launcher_that_is_killed_takes_its_server_with_it(self):
        with Launched(self.room) as launched:
            children = pathlib.Path(f"/proc/{launched.process.pid}/task/{launched.process.pid}/children").read_text()
            launched.end(signal.SIGKILL)
            end = time.monotonic() + SECONDS
            while os.path.exists(f"/proc/{children.strip()}/exe") and time.monotonic() < end:
                time.sleep(0.01)
            with self.assertRaises(OSError):
                os.readlink(f"/proc/{children.strip()}/exe")

    def test_a_signal_while_it_starts(self):
        ends = serve.EndsByASignal()
        try:
            os.kill(os.getpid(), signal.SIGTERM)
            running = server.Server(server.ServerWords())
            ends.follow(running)
            self.assertEqual(running.run(), 0)
        finally:
            signal.signal(signal.SIGTERM, signal.SIG_DFL)
            signal.signal(signal.SIGINT, signal.default_int_handler)

    def test_as_many_clients_as_told(self):
        with Launched(self.room, "--conns", "2", "--workers", "2", "--log", "json") as launched:
            for _ in range(2):
                session_at(launched.address)[0].close()
            self.assertEqual(launched.process.wait(SECONDS), 0)
            told = [json.loads(line) for line in launched.lines()]
            self.assertEqual([line["event"] for line in told][0], "listening")
            self.assertEqual(sorted(line["event"] for line in told[1:]), ["begins", "begins", "ends", "ends"])
            self.assertEqual({line["messages"] for line in told if line["event"] == "ends"}, {2})
            self.assertIsNotNone(side.load(launched.record).entries)

    def test_what_a_record_gives(self):
        with Launched(self.room, "--chan", "r5g6b5") as launched:
            session, root = session_at(launched.address, "new")
            session.stat(root)
            session.close()
            launched.end(signal.SIGTERM)
            status, replies, _ = ended("alone", launched.record, "--conn", "1")
            self.assertEqual((status, replies.count(b"\n")), (0, 3))
            status, frames, _ = ended("mirror", launched.record)
            self.assertEqual((status, frames[:22]), (0, b"F 0 300\nZ 640 480\nC 0 "))
            status, words, _ = ended("explain", launched.record)
            self.assertEqual((status, words.splitlines()[-1]), (0, b"1 end"))
            status, screen, _ = ended("replay", launched.record, "--screen", "--size", "64x48")
            self.assertEqual((status, screen[-(60 + 64 * 48 * 2) :][:11]), (0, b"     r5g6b5"))

    def test_an_address_that_is_taken(self):
        with socket.create_server(("127.0.0.1", 0)) as taken:
            status, out, err = ended("serve", "--listen", f"127.0.0.1:{taken.getsockname()[1]}")
        self.assertEqual((status, out, err.count("\n")), (6, b"", 1))
        self.assertIn("--listen 127.0.0.1:0 takes a free port", err)

    def test_a_record_that_is_there(self):
        path = pathlib.Path(self.room, "there")
        path.write_bytes(b"rio9 1\n")
        status, out, err = ended("serve", "--record", str(path))
        self.assertEqual((status, out, path.read_bytes()), (4, b"", b"rio9 1\n"))
        self.assertIn("name another file", err)
        self.assertEqual(ended("serve", "--listen", "127.0.0.1:0", "--record", f"{JUNK}/x")[0], 4)

    def test_a_socket_of_systemd(self):
        notified = socket.socket(socket.AF_UNIX, socket.SOCK_DGRAM)
        notified.bind(f"{self.room}/notify")
        with socket.create_server(("127.0.0.1", 0)) as listener, notified:
            script = (
                "import os, sys; os.dup2(int(sys.argv[1]), 3); os.environ['LISTEN_PID'] = str(os.getpid()); "
                "os.environ['LISTEN_FDS'] = '1'; os.execv(sys.executable, [sys.executable, *sys.argv[2:]])"
            )
            command = [sys.executable, "-c", script, str(listener.fileno()), str(PYTHON / "rio9d"), "serve"]
            environment = {**os.environ, "NOTIFY_SOCKET": f"{self.room}/notify"}
            run = subprocess.Popen(
                command,
                pass_fds=[listener.fileno()],
                stdout=subprocess.PIPE,
                stderr=subprocess.DEVNULL,
                env=environment,
            )
            try:
                port = listener.getsockname()[1]
                self.assertEqual(run.stdout.readline(), b"listening 127.0.0.1:%d\n" % port)
                notified.settimeout(SECONDS)
                self.assertEqual(notified.recv(99), b"READY=1")
                session_at(("127.0.0.1", port))[0].close()
                run.terminate()
                self.assertEqual((run.wait(SECONDS), notified.recv(99)), (0, b"STOPPING=1"))
            finally:
                run.kill()
                run.wait()
                run.stdout.close()

    def test_in_a_thread(self):
        told = []
        words = server.ServerWords(record=f"{self.room}/b.record", listen=("::1", 0))
        with server.Server(words, lambda event, _: told.append(event)) as running:
            self.assertIsNone(side.load(words.record).entries)
            session_at(running.address)[0].close()
            self.assertEqual(server.address_text(running.address)[:6], "[::1]:")
        self.assertTrue(running.is_whole)
        self.assertEqual(told, ["begins", "ends"])

    def test_a_program_that_is_killed(self):
        told = []
        with server.Server(server.ServerWords(), lambda event, _: told.append(event)) as running:
            running.process.kill()
            running.thread.join(SECONDS)
        self.assertFalse(running.is_whole)

    def test_one_that_does_not_end(self):
        told = []
        with mock.patch.object(server, "ENDS", 0.2), mock.patch.object(server.resource, "prlimit"):
            with server.Server(server.ServerWords(workers=1), lambda event, _: told.append(event)) as running:
                running.process.send_signal(signal.SIGSTOP)
        self.assertEqual((told, running.is_whole), (["forced"], False))


class Words(unittest.TestCase):
    def test_one_line_names_the_word(self):
        cases = [
            ("serve --size 3x", 1, "--size: a size as 640x480"),
            ("serve --size 2049x1", 1, "2048"),
            ("serve --chan q8", 1, "--chan: no channels"),
            ("serve --chan r8g8", 0, ""),
            ("serve --workers 17", 1, "--workers: a number from 1 to 16 is wanted, and not '17'"),
            ("serve --conns 0", 1, "--conns: a number from 1 to 100000"),
            ("serve --listen 5640", 1, "--listen: an address as 127.0.0.1:5640"),
            ("serve --listen a:65536", 1, "65536"),
            ("serve --wrokers 3", 1, "--wrokers"),
            (f"serve --program {NO_PROGRAM}", 127, "name rio9 by --program or by RIO9_PROGRAM"),
            (f"replay {EXAMPLES}/rio.record", 1, "rio.record.json tells the display: say its --size"),
            (f"replay {JUNK} --size 8x8", 3, "not-there"),
            (f"replay {JUNK}", 3, f"No such file or directory: {JUNK}"),
            ("alone x --conn 0", 1, "--conn"),
            ("alone x", 1, "--conn"),
            ("mirror", 1, "FILE"),
            (f"explain {EXAMPLES}/rio.record", 2, "rio.record.json tells the display: say its --chan, which is"),
            (f"explain {JUNK}", 2, "not-there"),
        ]
        for words, status, told in cases:
            if status == 0 or JUNK in words and "replay" in words and PROGRAM is None:
                continue
            with self.subTest(words):
                got, out, err = ended(*words.split())
                self.assertEqual((got, out, err.count("\n")), (status, b"", 1), err)
                self.assertTrue(err.startswith(f"rio9d {words.split()[0]}: ") and told in err, err)

    @needs_program
    def test_a_bad_record(self):
        with tempfile.TemporaryDirectory() as room:
            path = pathlib.Path(room, "bad")
            path.write_bytes(b"rio9 1\nB 1\nM 2 00\n")
            status, out, err = ended("replay", str(path), "--size", "64x48")
            self.assertEqual((status, out), (2, b""))
            self.assertEqual(err.splitlines()[0], "rio9: bad record at byte 11")
            self.assertIn("bad: line 3, word 2 `2`: session 2 has not begun", err.splitlines()[1])

    @needs_program
    def test_why_a_session_is_not_alone(self):
        with tempfile.TemporaryDirectory() as room:
            path = pathlib.Path(room, "two")
            path.write_bytes((EXAMPLES / "first.record").read_bytes())
            status, out, err = ended("alone", str(path), "--size", "64x48", "--conn", "1")
            self.assertEqual((status, out), (7, b""))
            self.assertIn("rio9d alone: the session is not alone with its window: it attaches a second time", err)

    def test_reasons(self):
        """Each reason of the page on isolation has words."""
        page = (EXAMPLES.parent / "docs" / "ISOLATION.md").read_text(encoding="utf-8")
        numbers = re.findall(r"^\| ([0-9]+) \|", page, re.MULTILINE)
        self.assertEqual(sorted(replays.REASONS), [int(number) for number in numbers])

    def test_display_of_a_record(self):
        with tempfile.TemporaryDirectory() as room:
            path = f"{room}/a"
            with self.assertRaises(FileNotFoundError):
                replays.display_of(path, None, None)
            pathlib.Path(path).touch()
            with self.assertRaisesRegex(program.Failure, "a.json"):
                replays.display_of(path, None, None)
            self.assertEqual(replays.display_of(path, (3, 4), None), ((3, 4), "x8r8g8b8"))
            self.assertEqual(replays.display_of(path, None, "k8"), ((640, 480), "k8"))
            side.Side((5, 6), "k4", side.now()).save(path)
            self.assertEqual(replays.display_of(path, None, None), ((5, 6), "k4"))
            self.assertEqual(replays.display_of(path, (3, 4), None), ((3, 4), "k4"))
            pathlib.Path(path + ".json").write_text("junk")
            with self.assertRaises(side.BadSide):
                replays.display_of(path, None, None)

    def test_log(self):
        out = io.StringIO()
        serve.Log(out, False).tell("waits", {"peer": "a:1", "workers": 3})
        self.assertRegex(out.getvalue(), r"^[0-9T:.+-]+ a:1 waits: all 3 workers are busy; .*\n$")


class Programs(unittest.TestCase):
    def test_where_it_is_found(self):
        with tempfile.TemporaryDirectory() as room:
            path = pathlib.Path(room, "rio9")
            path.write_text("#!/bin/sh\n")
            with mock.patch.dict(os.environ, {program.TOLD_BY: str(path)}), self.assertRaises(program.Failure):
                program.find()
            path.chmod(0o755)
            self.assertEqual(program.find(str(path)), str(path.resolve()))
            nowhere = {program.TOLD_BY: "", "PATH": str(EXAMPLES)}
            with mock.patch.dict(os.environ, nowhere), mock.patch.object(
                program, "places", lambda: [EXAMPLES / "rio9"]
            ):
                with self.assertRaisesRegex(program.Failure, "on PATH"):
                    program.find()
                with mock.patch.dict(os.environ, {"PATH": room}):
                    self.assertEqual(program.find(), str(path))
            with mock.patch.dict(os.environ, nowhere), mock.patch.object(program, "places", lambda: [path]):
                self.assertEqual(program.find(), str(path))
        self.assertEqual(len(list(program.places())), 3)

    def test_statuses(self):
        self.assertEqual([program.status_of(code) for code in (0, 6, -9)], [0, 6, 137])
        self.assertEqual([program.why_status(code) for code in (5, 4, -9)], ["memory ran out", "status 4", "signal 9"])

    def test_programs_that_do_not_listen(self):
        with tempfile.TemporaryDirectory() as room:
            path = pathlib.Path(room, "rio9")
            path.write_text("#!/bin/sh\necho 'rio9: out of memory' >&2\nexit 5\n")
            path.chmod(0o755)
            with self.assertRaisesRegex(program.Failure, "does not listen: rio9: out of memory") as raised:
                server.Server(server.ServerWords(binary=str(path)))
            self.assertEqual(raised.exception.status, 5)
            path.write_text("#!/bin/sh\nexit 1\n")
            with self.assertRaisesRegex(program.Failure, "does not listen: status 1; name rio9 by --program"):
                server.Server(server.ServerWords(binary=str(path)))
            path.write_text("#!/bin/sh\necho 'waiting' >&2\nexec sleep 60\n")
            with mock.patch.object(server, "STARTS", 0.5):
                with self.assertRaisesRegex(program.Failure, "does not listen: waiting"):
                    server.Server(server.ServerWords(binary=str(path)))
            with self.assertRaisesRegex(program.Failure, f"{NO_PROGRAM}/a; name another file by --record"):
                server.Server(server.ServerWords(binary=str(path), record=f"{NO_PROGRAM}/a"))
            path.write_bytes(b"\x7fELF junk")
            with self.assertRaisesRegex(program.Failure, "Exec format error"):
                server.Server(server.ServerWords(binary=str(path)))

    def test_no_socket_of_systemd(self):
        with mock.patch.dict(os.environ, {"LISTEN_PID": "1", "LISTEN_FDS": "1"}):
            self.assertIsNone(systemd.given_listener())
        with mock.patch.dict(os.environ, {"LISTEN_PID": str(os.getpid()), "LISTEN_FDS": "2"}):
            with self.assertRaisesRegex(program.Failure, "one socket"):
                systemd.given_listener()
        with mock.patch.dict(os.environ):
            os.environ.pop("NOTIFY_SOCKET", None)
            systemd.notify("READY=1")
            os.environ["NOTIFY_SOCKET"] = "@rio9 nobody"
            with contextlib.closing(socket.socket(socket.AF_UNIX, socket.SOCK_DGRAM)):
                systemd.notify("READY=1")


if __name__ == "__main__":
    unittest.main()
