#!/usr/bin/env python3
"""Tests of tools/pgm.py: python3 tools/test_pgm.py"""
import os
import subprocess
import sys
import tempfile
import unittest
import zlib

sys.dont_write_bytecode = True
import pgm

SCRIPT = os.path.join(os.path.dirname(os.path.abspath(__file__)), "pgm.py")


def parse(data):
    return pgm.parse_pgm(data, "in.pgm")


def run(*arguments, text=b""):
    return subprocess.run([sys.executable, SCRIPT, *arguments], input=text, capture_output=True, timeout=10)


class Pictures(unittest.TestCase):
    def test_plain_and_raw_are_the_same_picture(self):
        expected = pgm.Picture(3, 2, bytes([0, 1, 2, 35, 10, 255]))
        self.assertEqual(parse(b"P2\n3 2\n255\n0 1 2\n35 10 255\n"), expected)
        self.assertEqual(parse(b"P5 3 2 255\n" + expected.greys), expected)
        self.assertEqual(parse(pgm.p5(expected)), expected)

    def test_comments(self):
        self.assertEqual(parse(b"P2 # plain\n#\n2#two\n1\r# 9 9\n255 7 # 8\n9 # end").greys, bytes([7, 9]))
        self.assertEqual(parse(b"P5\n# a # b\n2 1\n# c\n255\n##").greys, b"##")
        self.assertEqual(parse(b"P5 2 1 255# d\n\n ").greys, b"\n ")

    def test_refused_pictures(self):
        for data, words in [
            (b"", "ends before its magic number"),
            (b"P6 1 1 255 abc", "not a PGM picture"),
            (b"\x89PNG\r\n", "not a PGM picture"),
            (b"P5 1 1", "ends before its maxval"),
            (b"P5 # 1 1 255", "ends before its width"),
            (b"P5 1 1 255", "ends before its pixels"),
            (b"P5 0 1 255 ", "width must be"),
            (b"P5 -1 1 255 a", "width must be"),
            (b"P5 1 " + b"1" * 5000 + b" 255 a", "height must be"),
            (b"P5 1 1 100 a", "maxval is 100, and only 255 is taken"),
            (b"P5 1 1 65535 aa", "maxval is 65535, and only 255 is taken"),
            (b"P5 2 2 255 abc", "2 x 2 is 4 pixels, but the picture has 3"),
            (b"P5 2 2 255\r\nabcd", "2 x 2 is 4 pixels, but the picture has 5"),
            (b"P2 2 1 255 1", "2 x 1 is 2 pixels, but the picture has 1"),
            (b"P2 2 1 255 1 256", "a grey value must be"),
            (b"P2 2 1 255 1 x", "a grey value must be"),
        ]:
            with self.subTest(data=data[:30]), self.assertRaisesRegex(pgm.Refused, words):
                parse(data)


class Jobs(unittest.TestCase):
    def test_bytes_of_a_job(self):
        map_picture, tile = pgm.Picture(2, 1, bytes([10, 20])), pgm.Picture(2, 1, bytes([9, 2]))
        calls = [pgm.parse_call(text) for text in ("D1", "E16", "O0", "C255")]
        expected = (
            b"H\2\1\4S\x0a\0\0" b"P\0\0\x0a\x09\0\0\0" b"P\1\0\x14\2\0\0\0"
            b"CD\1\0\0\0\0\0" b"CE\x10\0\0\0\0\0" b"CO\0\0\0\0\0\0" b"CC\xff\0\0\0\0\0"
        )
        self.assertEqual(pgm.job(map_picture, tile, "step", 10, 4, calls), expected)

    def test_shapes_and_high_pixel_numbers(self):
        flat = pgm.Picture(255, 255, bytes(255 * 255))
        for shape, letter in ("step", b"S"), ("tone", b"T"), ("turn", b"R"):
            written = pgm.job(flat, flat, shape, 255, 8, [])
            self.assertEqual(written[:8], b"H\xff\xff\x08" + letter + b"\xff\0\0")
        self.assertEqual(written[-8:], b"P\x00\xfe\0\0\0\0\0")
        self.assertEqual(len(written), 8 * (1 + 255 * 255))

    def test_refused_jobs(self):
        small, wide = pgm.Picture(2, 1, b"ab"), pgm.Picture(256, 1, bytes(256))
        for map_picture, tile, words in [
            (small, pgm.Picture(1, 2, b"ab"), "the map is 2 x 1, but the tile is 1 x 2"),
            (wide, wide, "at most 255"),
        ]:
            with self.assertRaisesRegex(pgm.Refused, words):
                pgm.job(map_picture, tile, "step", 1, 4, [])

    def test_refused_calls(self):
        for text in ("", "O", "3", "X1", "o1", "O-1", "O1 ", "O1.5", "O256", "D" + "9" * 5000, "O²"):
            with self.subTest(text=text[:10]), self.assertRaises(pgm.Refused):
                pgm.parse_call(text)


class Rows(unittest.TestCase):
    def test_rows_between_calls_and_note(self):
        picture = pgm.picture_in_text("O 2 0 0\nD 1 0 1\n7 0\n255 30\n1 2\nnote 1 -2 1 2\n")
        self.assertEqual(picture, pgm.Picture(2, 3, bytes([7, 0, 255, 30, 1, 2])))

    def test_refused_texts(self):
        for text, words in [
            ("", "the text is empty"),
            ("fault J 11 0\n", "fault J 11 0"),
            ("O 2 0 0\nfault M 5 3 at 9\n", "fault M 5 3 at 9"),
            ("calls not made: 4\n", "calls not made: 4"),
            ("note 0 0 0 0\n", "no rows"),
            ("1 2\n3 4\n", "cut short"),
            ("1 2\n3\nnote 0 0 0 0\n", "differ in length"),
            ("1 256\nnote 0 0 0 0\n", "a grey value must be"),
        ]:
            with self.subTest(text=text), self.assertRaisesRegex(pgm.Refused, words):
                pgm.picture_in_text(text)


class Pngs(unittest.TestCase):
    def test_pixels_are_enlarged(self):
        written = pgm.png(pgm.Picture(2, 1, bytes([5, 250])), 2)
        self.assertEqual(written[16:29], b"\0\0\0\4\0\0\0\2\x08\0\0\0\0")
        size = int.from_bytes(written[33:37], "big")
        line = bytes([0, 5, 5, 250, 250])
        self.assertEqual(zlib.decompress(written[41 : 41 + size]), line * 2)


class Program(unittest.TestCase):
    def setUp(self):
        folder = tempfile.TemporaryDirectory()
        self.addCleanup(folder.cleanup)
        self.picture = os.path.join(folder.name, "in.pgm")
        self.png = os.path.join(folder.name, "out.png")
        with open(self.picture, "wb") as file:
            file.write(b"P2 2 1 255 9 2")

    def refused(self, *arguments, text=b""):
        result = run(*arguments, text=text)
        self.assertEqual((result.returncode, result.stdout), (1, b""))
        self.assertEqual(result.stderr.count(b"\n"), 1)
        return result.stderr.decode()

    def test_job_and_rows(self):
        result = run("job", self.picture, self.picture, "turn", "91", "5", "O0")
        self.assertEqual((result.returncode, result.stderr), (0, b""))
        self.assertEqual(result.stdout[:8], b"H\2\1\5R\x5b\0\0")
        result = run("rows", text=b"9 2\nnote 0 0 0 0\n")
        self.assertEqual((result.returncode, result.stdout), (0, b"P5\n2 1\n255\n\x09\x02"))

    def test_refusals(self):
        self.assertIn("step, tone or turn", self.refused("job", self.picture, self.picture, "slope", "1", "8", "O1"))
        self.assertIn("No such file", self.refused("job", "/nowhere.pgm", self.picture, "step", "1", "8", "O1"))
        self.assertIn("fault J 11 0", self.refused("rows", text=b"fault J 11 0\n"))
        self.assertIn("the scale must be", self.refused("png", self.picture, self.png, "0"))
        self.assertFalse(os.path.exists(self.png))

    def test_help(self):
        for arguments in ((), ("-h",)):
            result = run(*arguments)
            self.assertEqual(result.returncode, 0)
            self.assertIn(b"tools/pgm.py job MAP.pgm", result.stdout)


if __name__ == "__main__":
    unittest.main()
