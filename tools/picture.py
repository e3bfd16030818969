#!/usr/bin/env python3
"""Turns a PGM picture into a grid file for run_rule, a grid file into a PGM picture, and the differences of two grid files into one.

    picture.py grid IN.pgm OUT.grid [--fields A,B,..]
    picture.py image IN.grid OUT.pgm --width W [--field K --fields N --max M]
    picture.py difference LEFT.grid RIGHT.grid OUT.pgm --width W [--field K --fields N]

A grid file has the entries of a grid in the order of its cells, the fields of a cell together, as whole numbers with blanks and line breaks
between them. `grid` writes one line for each row of the picture; with --fields each cell gets further fields with these values. `image`
takes field K (from 0) of N and writes it as a plain PGM of W columns with the greatest grey value M (255 if not given). `difference` writes
a plain PGM that is white (255) where field K of the two grids differs, or any of the N fields if K is not given, and black (0) elsewhere.
`-` stands for standard input or output.
"""

import argparse
import sys

BLANKS = b" \t\n\v\f\r"
LARGEST = 65535


class Damaged(Exception):
    """What is wrong with an input, in words."""


def read_header(data):
    """The kind of a PGM picture, its width, height and greatest value, and where its pixels begin."""
    kind = data[:2]
    if kind not in (b"P2", b"P5"):
        raise Damaged("not a PGM picture: it does not begin with P2 or P5")
    at = 2
    if at >= len(data) or (data[at] not in BLANKS and data[at] != 35):
        raise Damaged("not a PGM picture: no blank behind %s" % kind.decode())
    numbers = []
    for name in ("width", "height", "greatest value"):
        at = skip_blanks(data, at)
        end = at
        while end < len(data) and 48 <= data[end] <= 57:
            end += 1
        if end == at:
            raise Damaged("the header ends before the %s" % name)
        numbers.append(int(data[at:end]))
        at = end
    width, height, most = numbers
    if width == 0 or height == 0:
        raise Damaged("the picture has no pixels: %d x %d" % (width, height))
    if not 1 <= most <= LARGEST:
        raise Damaged("the greatest value %d is not from 1 to %d" % (most, LARGEST))
    return kind, width, height, most, at


def skip_blanks(data, at):
    """The first place from `at` on that is neither blank nor in a comment."""
    while at < len(data):
        if data[at] in BLANKS:
            at += 1
        elif data[at] == 35:
            while at < len(data) and data[at] not in b"\r\n":
                at += 1
        else:
            break
    return at


def read_pgm(data):
    """The width, height, greatest value and pixels of a PGM picture, P2 or P5."""
    kind, width, height, most, at = read_header(data)
    wanted = width * height
    if kind == b"P2":
        pixels = read_plain(data, at)
    else:
        if at >= len(data) or data[at] not in BLANKS:
            raise Damaged("no blank behind the greatest value")
        pixels = read_raw(data[at + 1 :], most, wanted)
    if len(pixels) != wanted:
        raise Damaged("%d pixels for %d x %d" % (len(pixels), width, height))
    for number, pixel in enumerate(pixels):
        if pixel > most:
            raise Damaged("pixel %d is %d, over the greatest value %d" % (number, pixel, most))
    return width, height, most, pixels


def read_plain(data, at):
    """The pixels of a P2 picture."""
    pixels = []
    while True:
        at = skip_blanks(data, at)
        if at >= len(data):
            return pixels
        end = at
        while end < len(data) and data[end] not in BLANKS and data[end] != 35:
            end += 1
        word = data[at:end]
        if not word.isdigit():
            raise Damaged("pixel %d is no number: %r" % (len(pixels), word.decode("latin-1")))
        pixels.append(int(word))
        at = end


def read_raw(data, most, wanted):
    """The pixels of a P5 picture, of one byte each or, with a greatest value over 255, of two."""
    if most < 256:
        return list(data[:wanted])
    data = data[: 2 * wanted]
    return [256 * data[i] + data[i + 1] for i in range(0, len(data) - 1, 2)]


def read_grid(text):
    """The entries of a grid file."""
    entries = []
    for number, line in enumerate(text.split(b"\n"), 1):
        for word in line.split():
            digits = word[1:] if word[:1] in (b"+", b"-") else word
            if not digits.isdigit():
                raise Damaged("line %d: %r is no whole number" % (number, word.decode("latin-1")))
            entries.append(int(word))
    return entries


def grid_of(data, fields):
    """The grid file of a picture, its cells with further fields."""
    width, height, _, pixels = read_pgm(data)
    behind = "".join(" %d" % value for value in fields)
    lines = []
    for row in range(height):
        cells = pixels[row * width : (row + 1) * width]
        lines.append(" ".join("%d%s" % (pixel, behind) for pixel in cells))
    return ("\n".join(lines) + "\n").encode()


def check_layout(width, field, fields):
    """Whether there can be rows of so many cells, and such a field."""
    if width < 1:
        raise Damaged("the width %d is not at least 1" % width)
    if not 0 <= field < fields:
        raise Damaged("there is no field %d of %d" % (field, fields))


def read_cells(text, width, fields):
    """The entries of a grid file, in whole rows of cells."""
    entries = read_grid(text)
    if not entries or len(entries) % (width * fields) != 0:
        raise Damaged("%d entries do not make rows of %d cells with %d fields" % (len(entries), width, fields))
    return entries


def write_plain(pixels, width, most):
    """The P2 picture of some pixels."""
    height = len(pixels) // width
    lines = ["P2", "%d %d" % (width, height), "%d" % most]
    for row in range(height):
        lines.append(" ".join(str(pixel) for pixel in pixels[row * width : (row + 1) * width]))
    return ("\n".join(lines) + "\n").encode()


def image_of(text, width, field, fields, most):
    """The picture of a field of a grid file."""
    check_layout(width, field, fields)
    if not 1 <= most <= LARGEST:
        raise Damaged("the greatest value %d is not from 1 to %d" % (most, LARGEST))
    pixels = read_cells(text, width, fields)[field::fields]
    for number, pixel in enumerate(pixels):
        if not 0 <= pixel <= most:
            raise Damaged("cell %d has %d, which is not from 0 to %d" % (number, pixel, most))
    return write_plain(pixels, width, most)


def difference_of(left, right, width, field, fields):
    """The picture of where two grid files differ: in a field, or in any where it is None."""
    check_layout(width, field or 0, fields)
    grids = []
    for name, text in (("left", left), ("right", right)):
        try:
            grids.append(read_cells(text, width, fields))
        except Damaged as wrong:
            raise Damaged("%s grid: %s" % (name, wrong))
    if len(grids[0]) != len(grids[1]):
        raise Damaged("the grids have %d and %d entries" % (len(grids[0]), len(grids[1])))
    differs = [one != other for one, other in zip(*grids)]
    chosen = range(fields) if field is None else [field]
    pixels = []
    for cell in range(0, len(differs), fields):
        pixels.append(255 if any(differs[cell + number] for number in chosen) else 0)
    return write_plain(pixels, width, 255)


def numbers(text):
    """Whole numbers with commas between them."""
    try:
        return [int(word) for word in text.split(",")]
    except ValueError:
        raise argparse.ArgumentTypeError("%r is not whole numbers with commas between them" % text)


def arguments(words):
    parser = argparse.ArgumentParser(prog="picture.py", description="turns a PGM picture into a grid file, and back, and shows differences")
    ways = parser.add_subparsers(dest="way", required=True)
    grid = ways.add_parser("grid", help="a picture into a grid file")
    grid.add_argument("input", metavar="IN.pgm")
    grid.add_argument("output", metavar="OUT.grid")
    grid.add_argument("--fields", type=numbers, default=[], help="the values of further fields, as 0,0")
    image = ways.add_parser("image", help="a grid file into a picture")
    image.add_argument("input", metavar="IN.grid")
    image.add_argument("output", metavar="OUT.pgm")
    image.add_argument("--width", type=int, required=True, help="how many columns the picture has")
    image.add_argument("--field", type=int, default=0, help="the field that is the grey value, from 0")
    image.add_argument("--fields", type=int, default=1, help="how many fields a cell has")
    image.add_argument("--max", type=int, default=255, help="the greatest grey value")
    difference = ways.add_parser("difference", help="the differences of two grid files into a picture")
    difference.add_argument("input", metavar="LEFT.grid")
    difference.add_argument("other", metavar="RIGHT.grid")
    difference.add_argument("output", metavar="OUT.pgm")
    difference.add_argument("--width", type=int, required=True, help="how many columns the picture has")
    difference.add_argument("--field", type=int, help="the field that is compared, from 0; all if it is not given")
    difference.add_argument("--fields", type=int, default=1, help="how many fields a cell has")
    return parser.parse_args(words)


def read(name):
    if name == "-":
        return sys.stdin.buffer.read()
    with open(name, "rb") as file:
        return file.read()


def write(name, data):
    if name == "-":
        sys.stdout.buffer.write(data)
        return
    with open(name, "wb") as file:
        file.write(data)


def made(asked):
    """The output that the arguments request."""
    if asked.way == "grid":
        return grid_of(read(asked.input), asked.fields)
    if asked.way == "image":
        return image_of(read(asked.input), asked.width, asked.field, asked.fields, asked.max)
    if asked.input == "-" and asked.other == "-":
        raise Damaged("both grids cannot be standard input")
    return difference_of(read(asked.input), read(asked.other), asked.width, asked.field, asked.fields)


def main(words):
    asked = arguments(words)
    try:
        out = made(asked)
    except Damaged as wrong:
        names = [asked.input] + ([asked.other] if asked.way == "difference" else [])
        print("picture.py: %s: %s" % (", ".join(names), wrong), file=sys.stderr)
        return 1
    except OSError as wrong:
        print("picture.py: %s: %s" % (wrong.filename or asked.input, wrong.strerror), file=sys.stderr)
        return 1
    try:
        write(asked.output, out)
    except OSError as wrong:
        print("picture.py: %s: %s" % (asked.output, wrong.strerror), file=sys.stderr)
        return 1
    return 0


if __name__ == "__main__":
    sys.exit(main(sys.argv[1:]))
