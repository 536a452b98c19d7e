"""Tests of rio9.picture: small pictures whose colours were worked out by hand from image(6) and draw(2)."""

import struct
import unittest
import zlib

from rio9 import formats, picture

# Channels, left and right edge, height, rows, and the pixels that the PNG has.
PICTURES = [
    ("x8r8g8b8", 0, 2, 1, "0000ffab 112233ff", "ff0000 332211"),
    ("r8g8b8", 0, 1, 2, "010203 040506", "030201 060504"),
    ("r5g6b5", 0, 1, 1, "3412", "1045a5"),
    ("k8", 0, 3, 1, "0080ff", "000000 808080 ffffff"),
    ("k4", -1, 2, 1, "0777", "777777 777777 777777"),
    ("k2", 0, 4, 1, "1b", "000000 555555 aaaaaa ffffff"),
    ("k1", 3, 11, 1, "0a40", "000000 ffffff 000000 ffffff 000000 000000 ffffff 000000"),
    ("a8r8g8b8", 0, 3, 1, "00004080 00000000 ff8000ff", "80000080 00000000 0080ffff"),
]

# What is no picture: channels, width, height, rows.
NO_PICTURES = [("k8", 2, 2, "000000"), ("k8", 0, 2, ""), ("k8", 2, 0, ""), ("k3", 1, 1, "00"), ("r4g4b4", 1, 1, "0000")]

IMAGE_FILE = b"         k8           2           0           4           1 " + b"\x00\xff"


def pixels_of(png):
    """Width, height and pixels of a PNG file of 8 bits a channel whose rows are not filtered."""
    chunks, at = {}, 8
    while at < len(png):
        size, kind = struct.unpack(">I4s", png[at : at + 8])
        data, check = png[at + 8 : at + 8 + size], png[at + 8 + size : at + 12 + size]
        assert struct.unpack(">I", check)[0] == zlib.crc32(kind + data)
        chunks[kind], at = data, at + 12 + size
    width, height, bits, colours = struct.unpack(">IIBB", chunks[b"IHDR"][:10])
    assert bits == 8
    row, rows = 1 + width * {2: 3, 6: 4}[colours], zlib.decompress(chunks[b"IDAT"])
    lines = [rows[at : at + row] for at in range(0, len(rows), row)]
    assert all(line[0] == 0 for line in lines)
    return width, height, b"".join(line[1:] for line in lines)


def rread(data):
    message = (11 + len(data)).to_bytes(4, "little") + b"\x75\x01\x00" + len(data).to_bytes(4, "little") + data
    return f"R 1 {message.hex()}\n".encode()


class Pictures(unittest.TestCase):
    def test_pixels(self):
        for channels, left, right, height, rows, pixels in PICTURES:
            with self.subTest(channels):
                png = picture.picture(formats.channels_word(channels), left, right, height, bytes.fromhex(rows))
                self.assertEqual(pixels_of(png), (right - left, height, bytes.fromhex(pixels)))

    def test_scale(self):
        png = picture.picture(formats.channels_word("k8"), 0, 2, 1, b"\x00\xff", 2)
        self.assertEqual(pixels_of(png), (4, 2, 2 * bytes.fromhex("000000 000000 ffffff ffffff")))

    def test_no_pictures(self):
        for channels, width, height, rows in NO_PICTURES:
            with self.subTest(channels), self.assertRaises(picture.NoPicture):
                picture.picture(formats.channels_word(channels), 0, width, height, bytes.fromhex(rows))

    def test_choice_of_a_read(self):
        replies = formats.read_replies(rread(b"one") + b"R 1 070000006d0100\n" + rread(b"two"))
        self.assertEqual(picture.chosen_read(replies, None), b"two")
        self.assertEqual(picture.chosen_read(replies, 1), b"one")
        for number in (0, 3):
            with self.assertRaises(picture.NoPicture):
                picture.chosen_read(replies, number)

    def test_screen(self):
        for output in (IMAGE_FILE, b"S 62\n" + IMAGE_FILE, rread(b"one") + b"S 62\n" + IMAGE_FILE):
            with self.subTest(output[:10]):
                replies = picture.read_output(output)
                png = picture.picture(*picture.read_image_file(replies.screen))
                self.assertEqual(pixels_of(png), (2, 1, bytes.fromhex("000000 ffffff")))

    def test_no_screen(self):
        for data in (IMAGE_FILE[:59], IMAGE_FILE.replace(b"k8", b"q8"), b"R" + IMAGE_FILE, IMAGE_FILE[1:]):
            with self.subTest(data[:20]), self.assertRaises(picture.NoPicture):
                picture.read_image_file(data)
        for output in (b"S 61\n" + IMAGE_FILE, b"S 63\n" + IMAGE_FILE):
            with self.subTest(output[:10]), self.assertRaises(formats.BadText):
                picture.read_output(output)


if __name__ == "__main__":
    unittest.main()
