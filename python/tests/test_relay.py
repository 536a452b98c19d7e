"""Tests of rio9.relay before a small server that sends back what comes."""

import itertools
import os
import socket
import threading
import time
import unittest

from rio9 import relay

SECONDS = 10


class Echo(threading.Thread):
    """Sends each connection's bytes back, and ends it when it ends."""

    def __init__(self):
        super().__init__(daemon=True)
        self.listener = socket.create_server(("127.0.0.1", 0))
        self.address = self.listener.getsockname()
        self.start()

    def run(self):
        while True:
            try:
                connection, _ = self.listener.accept()
            except OSError:
                return
            threading.Thread(target=self.attend, args=(connection,), daemon=True).start()

    def attend(self, connection):
        with connection:
            while data := connection.recv(1 << 16):
                if data == b"reset":
                    connection.setsockopt(socket.SOL_SOCKET, socket.SO_LINGER, b"\1\0\0\0\0\0\0\0")
                    break
                connection.sendall(data)


class Running:
    """A relay that runs before an echo, and what it told."""

    def __init__(self, workers=4):
        self.echo, self.told = Echo(), []
        self.process, self.ended = os.pipe()
        listener = socket.create_server(("127.0.0.1", 0))
        self.address = listener.getsockname()
        self.relay = relay.Relay(
            listener, self.echo.address, workers, lambda event, told: self.told.append((event, told))
        )
        self.thread = threading.Thread(target=self.relay.run, args=(self.process,), daemon=True)
        self.thread.start()

    def __enter__(self):
        return self

    def __exit__(self, *_):
        self.relay.stop()
        self.thread.join(SECONDS)
        assert not self.thread.is_alive()
        os.close(self.process)
        os.close(self.ended)
        self.echo.listener.close()

    def connect(self):
        return socket.create_connection(self.address, SECONDS)

    def events(self):
        return [event for event, _ in self.told]


def take(connection, count):
    data = bytearray()
    while len(data) < count and (piece := connection.recv(1 << 16)):
        data += piece
    return bytes(data)


class Relays(unittest.TestCase):
    def test_bytes_go_both_ways(self):
        with Running() as running:
            with running.connect() as one, running.connect() as other:
                one.sendall(b"one")
                other.sendall(b"other")
                self.assertEqual((take(one, 3), take(other, 5)), (b"one", b"other"))
                one.shutdown(socket.SHUT_WR)
                self.assertEqual(one.recv(1), b"")
            running.relay.stop()
            running.thread.join(SECONDS)
            told = {told["connection"]: told for event, told in running.told if event == "ends"}
            self.assertEqual([(told[link]["sent"], told[link]["got"]) for link in (1, 2)], [(3, 3), (5, 5)])

    def test_a_client_that_does_not_read(self):
        data = bytes(range(256)) * (1 << 16)
        with Running() as running, running.connect() as client:
            sender = threading.Thread(target=client.sendall, args=(data,))
            sender.start()
            time.sleep(0.2)
            self.assertLessEqual(
                sum(len(way.waiting) for link in running.relay.live for way in link.ways()), 2 * relay.PIECE
            )
            self.assertEqual(take(client, len(data)), data)
            sender.join(SECONDS)

    def test_more_clients_than_workers(self):
        with Running(2) as running:
            clients = [running.connect() for _ in range(5)]
            for client in clients:
                client.sendall(b"x")
            for client in clients:
                self.assertEqual(client.recv(1), b"x")
                client.close()
            self.assertEqual(running.events().count("waits"), 3)
        there = [{"begins": 1, "ends": -1}.get(event, 0) for event in running.events()]
        self.assertEqual(max(itertools.accumulate(there)), 2)

    def test_clients_and_servers_that_break_off(self):
        with Running() as running:
            with running.connect() as client:
                client.sendall(b"reset")
                with self.assertRaises(OSError):
                    if client.recv(1) == b"":
                        raise OSError
            with running.connect() as client:
                client.sendall(b"x")
                client.recv(1)
                client.setsockopt(socket.SOL_SOCKET, socket.SO_LINGER, b"\1\0\0\0\0\0\0\0")
            with running.connect() as client:
                client.sendall(b"y")
                self.assertEqual(client.recv(1), b"y")
        self.assertEqual((running.events().count("begins"), running.events().count("ends")), (3, 3))

    def test_end_while_clients_are_there(self):
        with Running(1) as running:
            with running.connect() as client, running.connect() as waits:
                client.sendall(b"x")
                self.assertEqual(client.recv(1), b"x")
                while "waits" not in running.events():
                    time.sleep(0.01)
                running.relay.stop()
                self.assertEqual(client.recv(1), b"")
                self.assertEqual(waits.recv(1), b"")

    def test_end_of_the_servers_process(self):
        with Running() as running:
            os.write(running.ended, b".")
            running.thread.join(SECONDS)
            self.assertFalse(running.thread.is_alive())

    def test_a_server_that_is_gone(self):
        with Running() as running:
            running.echo.listener.shutdown(socket.SHUT_RDWR)
            running.echo.listener.close()
            with running.connect() as client:
                self.assertEqual(client.recv(1), b"")
            self.assertEqual(running.events(), ["refused"])

    def test_marks(self):
        with Running() as running, running.connect() as client:
            began = time.monotonic()
            for _ in range(3):
                client.sendall(b"0123456")
                self.assertEqual(take(client, 7), b"0123456")
            while time.monotonic() - began < 1.2:
                time.sleep(0.05)
            client.sendall(b"x")
            self.assertEqual(take(client, 1), b"x")
            marks = running.relay.marks
            self.assertEqual([(mark.link, mark.offset) for mark in (marks[0], marks[-1])], [(1, 0), (1, 21)])
            self.assertLess(marks[0].milliseconds // 1000, marks[-1].milliseconds // 1000)

    def test_names_of_peers(self):
        cases = [(("127.0.0.1", 5), "127.0.0.1:5"), (("::1", 5, 0, 0), "[::1]:5"), ("", "a local client"), ("/a", "/a")]
        for address, name in cases:
            self.assertEqual(relay.peer_of(address), name)


if __name__ == "__main__":
    unittest.main()
