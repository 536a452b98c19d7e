"""Tests of rio9.wireshark: the packets of a capture are taken apart again, by IP and TCP as their standards have them."""

import contextlib
import io
import pathlib
import struct
import tempfile
import unittest

from rio9 import formats, wireshark

EXAMPLES = pathlib.Path(__file__).resolve().parent.parent.parent / "examples"
FIN, SYN = 1, 2


def packets_of(capture):
    """The packets of a capture."""
    assert struct.unpack("<I", capture[:4])[0] == 0xA1B2C3D4
    at, found = 24, []
    while at < len(capture):
        size = struct.unpack("<I", capture[at + 8 : at + 12])[0]
        found.append(capture[at + 16 : at + 16 + size])
        at += 16 + size
    return found


def summed(data):
    """The sum of sixteen bits that is 0xFFFF where a check sum is right."""
    total = sum(struct.unpack(f">{(len(data) + 1) // 2}H", data + bytes(len(data) % 2)))
    while total > 0xFFFF:
        total = (total & 0xFFFF) + (total >> 16)
    return total


def streams_of(packets):
    """What was sent by each port to each other one, whose sequence numbers have to follow each other."""
    found, places = {}, {}
    for packet in packets:
        assert summed(packet[:20]) == 0xFFFF
        tcp = packet[20:]
        assert summed(packet[12:20] + struct.pack(">BBH", 0, 6, len(tcp)) + tcp) == 0xFFFF
        source, target, sequence, _, _, flags = struct.unpack(">HHIIBB", tcp[:14])
        way = source, target
        assert places.setdefault(way, sequence) == sequence, way
        places[way] += len(tcp) - 20 + bool(flags & FIN) + bool(flags & SYN)
        found[way] = found.get(way, b"") + tcp[20:]
    return found


class Captures(unittest.TestCase):
    def test_examples(self):
        for name in ("walk", "guest", "shapes", "input"):
            with self.subTest(name):
                events = formats.read_record((EXAMPLES / f"{name}.record").read_bytes())
                replies = formats.read_replies((EXAMPLES / f"{name}.replies").read_bytes())
                capture, counts = wireshark.write_capture(events, replies)
                sent, got = {}, {}
                for event in events:
                    if event.kind == formats.MESSAGE:
                        sent[event.session] = sent.get(event.session, b"") + event.message
                for session, message in replies.messages:
                    got[session] = got.get(session, b"") + message
                streams = streams_of(packets_of(capture))
                port = wireshark.FIRST_CLIENT_PORT
                self.assertEqual({way[0] - port: data for way, data in streams.items() if way[1] == 564}, sent)
                self.assertEqual({way[1] - port: data for way, data in streams.items() if way[0] == 564}, got)
                self.assertEqual(counts[1], len(replies.messages))

    def test_command(self):
        with tempfile.TemporaryDirectory() as room:
            words = [str(EXAMPLES / "walk.record"), str(EXAMPLES / "walk.replies"), f"{room}/walk.pcap"]
            err = io.StringIO()
            with contextlib.redirect_stderr(err):
                self.assertEqual(wireshark.main(words), 0)
            self.assertRegex(err.getvalue(), r"^[0-9]+ messages, [0-9]+ replies\n$")
            self.assertGreater(len(packets_of(pathlib.Path(words[2]).read_bytes())), 9)

    def test_what_is_read_is_not_lost(self):
        with tempfile.TemporaryDirectory() as room:
            record = pathlib.Path(room, "walk.record")
            record.write_bytes((EXAMPLES / "walk.record").read_bytes())
            err = io.StringIO()
            with contextlib.redirect_stderr(err), self.assertRaises(SystemExit):
                wireshark.main([str(record), str(EXAMPLES / "walk.replies"), str(record)])
            self.assertIn("would be lost: name another file", err.getvalue())
            self.assertEqual(record.read_bytes(), (EXAMPLES / "walk.record").read_bytes())


if __name__ == "__main__":
    unittest.main()
