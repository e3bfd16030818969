"""Tests of picture.py: python3 -m unittest discover -s tools"""

import os
import sys
import unittest

sys.path.insert(0, os.path.dirname(os.path.abspath(__file__)))

from picture import Damaged, difference_of, grid_of, image_of, read_grid, read_pgm  # noqa: E402


class Pictures(unittest.TestCase):
    def test_plain(self):
        self.assertEqual(read_pgm(b"P2\n3 2\n9\n1 2 3\n4 5 6\n"), (3, 2, 9, [1, 2, 3, 4, 5, 6]))

    def test_comments(self):
        self.assertEqual(read_pgm(b"P2 # a\n# b\n1 2 # c\n7\n0 # d\n7"), (1, 2, 7, [0, 7]))

    def test_raw(self):
        self.assertEqual(read_pgm(b"P5\n2 2\n255\n\x00\x0a\x20\xff"), (2, 2, 255, [0, 10, 32, 255]))

    def test_raw_of_two_bytes(self):
        self.assertEqual(read_pgm(b"P5 2 1 1000 \x00\x05\x03\xe8"), (2, 1, 1000, [5, 1000]))

    def test_damaged(self):
        for data, says in [
            (b"P6\n1 1\n255\n\x00", "does not begin with P2 or P5"),
            (b"", "does not begin with P2 or P5"),
            (b"P25 1 9 0", "no blank behind P2"),
            (b"P2\n3", "ends before the height"),
            (b"P2\n3 x", "ends before the height"),
            (b"P2\n0 2\n9\n", "no pixels"),
            (b"P2\n1 1\n0\n0", "greatest value 0"),
            (b"P2\n1 1\n70000\n0", "greatest value 70000"),
            (b"P2\n2 2\n9\n1 2 3", "3 pixels for 2 x 2"),
            (b"P2\n2 1\n9\n1 2 3", "3 pixels for 2 x 1"),
            (b"P2\n2 1\n9\n1 a", "pixel 1 is no number"),
            (b"P2\n2 1\n9\n1 -2", "pixel 1 is no number"),
            (b"P2\n2 1\n9\n1 10", "pixel 1 is 10, over"),
            (b"P5\n2 2\n255\n\x00\x01", "2 pixels for 2 x 2"),
            (b"P5\n1 1\n255", "no blank behind the greatest value"),
        ]:
            with self.subTest(data=data):
                with self.assertRaisesRegex(Damaged, says):
                    read_pgm(data)


class Grids(unittest.TestCase):
    def test_read(self):
        self.assertEqual(read_grid(b" 1 -2\r\n\n+3\t4"), [1, -2, 3, 4])

    def test_one_field(self):
        self.assertEqual(grid_of(b"P2\n2 2\n9\n1 2 3 4", []), b"1 2\n3 4\n")

    def test_more_fields(self):
        self.assertEqual(grid_of(b"P2\n2 1\n9\n1 2", [0, -7]), b"1 0 -7 2 0 -7\n")

    def test_image(self):
        self.assertEqual(image_of(b"1 2\n3 4\n", 2, 0, 1, 9), b"P2\n2 2\n9\n1 2\n3 4\n")

    def test_image_of_a_field(self):
        self.assertEqual(image_of(b"1 0 -7 2 5 -7\n", 1, 1, 3, 9), b"P2\n1 2\n9\n0\n5\n")

    def test_back(self):
        picture = b"P2\n3 2\n255\n0 128 255\n7 8 9\n"
        self.assertEqual(image_of(grid_of(picture, [4]), 3, 0, 2, 255), picture)

    def test_damaged(self):
        for text, width, field, fields, most, says in [
            (b"1 2 3", 2, 0, 1, 9, "3 entries do not make rows of 2"),
            (b"", 2, 0, 1, 9, "0 entries"),
            (b"1 x", 2, 0, 1, 9, "line 1: 'x' is no whole number"),
            (b"1\n2-", 2, 0, 1, 9, "line 2: '2-' is no whole number"),
            (b"1 10", 2, 0, 1, 9, "cell 1 has 10"),
            (b"1 -1", 2, 0, 1, 9, "cell 1 has -1"),
            (b"1 2", 0, 0, 1, 9, "width 0"),
            (b"1 2", 1, 2, 2, 9, "no field 2 of 2"),
            (b"1 2", 1, 0, 2, 0, "greatest value 0"),
        ]:
            with self.subTest(text=text):
                with self.assertRaisesRegex(Damaged, says):
                    image_of(text, width, field, fields, most)


class Differences(unittest.TestCase):
    def test_none(self):
        self.assertEqual(difference_of(b"1 -2\n3 4", b"1 -2 3\n4", 2, None, 1), b"P2\n2 2\n255\n0 0\n0 0\n")

    def test_some(self):
        self.assertEqual(difference_of(b"1 2 3 4", b"1 -2 3 5", 2, None, 1), b"P2\n2 2\n255\n0 255\n0 255\n")

    def test_a_field(self):
        left, right = b"1 0 0 2 0 0 3 0 0", b"9 0 0 2 7 0 3 0 7"
        self.assertEqual(difference_of(left, right, 3, 0, 3), b"P2\n3 1\n255\n255 0 0\n")
        self.assertEqual(difference_of(left, right, 3, 1, 3), b"P2\n3 1\n255\n0 255 0\n")

    def test_any_field(self):
        left, right = b"1 0 0 2 0 0 3 0 0", b"9 0 0 2 0 0 3 0 7"
        self.assertEqual(difference_of(left, right, 3, None, 3), b"P2\n3 1\n255\n255 0 255\n")

    def test_swapped(self):
        left, right = b"1 2 3 4 5 6", b"1 5 3 4 0 6"
        self.assertEqual(difference_of(left, right, 3, None, 1), difference_of(right, left, 3, None, 1))

    def test_damaged(self):
        for left, right, width, field, fields, says in [
            (b"1 2", b"1 2 3 4", 2, None, 1, "have 2 and 4 entries"),
            (b"1 2 3", b"1 2 3", 2, None, 1, "left grid: 3 entries do not make rows of 2"),
            (b"1 2", b"1 x", 2, None, 1, "right grid: line 1: 'x' is no whole number"),
            (b"", b"", 1, None, 1, "left grid: 0 entries"),
            (b"1 2", b"1 2", 0, None, 1, "width 0"),
            (b"1 2", b"1 2", 1, 2, 2, "no field 2 of 2"),
            (b"1 2", b"1 2", 1, -1, 2, "no field -1 of 2"),
        ]:
            with self.subTest(left=left, right=right):
                with self.assertRaisesRegex(Damaged, says):
                    difference_of(left, right, width, field, fields)


if __name__ == "__main__":
    unittest.main()
