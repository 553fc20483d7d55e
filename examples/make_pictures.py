#!/usr/bin/env python3
"""Makes the sample pictures beside this script. Every run gives the same bytes."""

from pathlib import Path

# The middle lines of each character's strokes, in pixels: 8 wide, 34 high.
CHARACTERS = {
    "H": [[(0, 0), (0, 34)], [(8, 0), (8, 34)], [(0, 17), (8, 17)]],
    "A": [[(0, 34), (0, 3), (3, 0), (5, 0), (8, 3), (8, 34)], [(0, 20), (8, 20)]],
    "L": [[(0, 0), (0, 34), (8, 34)]],
    "K": [[(0, 0), (0, 34)], [(8, 0), (8, 5), (1, 17), (8, 29), (8, 34)]],
    "0": [[(3, 0), (5, 0), (8, 3), (8, 31), (5, 34), (3, 34), (0, 31), (0, 3), (3, 0)]],
    "3": [[(0, 3), (3, 0), (5, 0), (8, 3), (8, 13), (5, 16), (8, 19), (8, 31), (5, 34), (3, 34), (0, 31)],
          [(3, 16), (5, 16)]],
    "8": [[(3, 0), (5, 0), (8, 3), (8, 13), (5, 16), (3, 16), (0, 13), (0, 3), (3, 0)],
          [(3, 16), (0, 19), (0, 31), (3, 34), (5, 34), (8, 31), (8, 19), (5, 16)]],
}


class Picture:
    """Rows of pixels, 1 for black."""

    def __init__(self, width, height):
        self.width, self.height = width, height
        self.rows = [[0] * width for _ in range(height)]

    def box(self, left, top, right, bottom, value=1):
        """Paints a box, all four sides inside."""
        for y in range(top, bottom + 1):
            for x in range(left, right + 1):
                self.rows[y][x] = value

    def stroke(self, start, end, thickness):
        """Paints every pixel whose middle is within thickness / 2 of the line from start to end.

        The line joins corners of pixels: (0, 0) is the top left corner of the first. So thickness is even.
        """
        (x0, y0), (x1, y1) = start, end
        dx, dy = x1 - x0, y1 - y0
        square = dx * dx + dy * dy
        for y in range(self.height):
            for x in range(self.width):
                # Twice the way from the start, and from the end, to the pixel's middle.
                sx, sy = 2 * x + 1 - 2 * x0, 2 * y + 1 - 2 * y0
                ex, ey = 2 * x + 1 - 2 * x1, 2 * y + 1 - 2 * y1
                along = sx * dx + sy * dy
                if along <= 0:
                    inside = sx * sx + sy * sy <= thickness ** 2
                elif along >= 2 * square:
                    inside = ex * ex + ey * ey <= thickness ** 2
                else:
                    inside = (sx * dy - sy * dx) ** 2 <= thickness ** 2 * square
                if inside:
                    self.rows[y][x] = 1

    def character(self, name, left, top, thickness):
        for line in CHARACTERS[name]:
            points = [(left + x, top + y) for x, y in line]
            for start, end in zip(points, points[1:]):
                self.stroke(start, end, thickness)

    def text(self, text, left, top, pitch, thickness):
        for place, name in enumerate(text):
            self.character(name, left + place * pitch, top, thickness)

    def packed(self):
        """As P4, the padding bits 0."""
        data = bytearray(b"P4\n%d %d\n" % (self.width, self.height))
        for row in self.rows:
            for first in range(0, self.width, 8):
                bits = row[first:first + 8]
                data.append(int("".join(map(str, bits)).ljust(8, "0"), 2))
        return bytes(data)

    def plain(self, comment):
        """As P1."""
        rows = ["".join(map(str, row)) for row in self.rows]
        return "\n".join(["P1", "# " + comment, f"{self.width} {self.height}", *rows, ""]).encode()


def plate():
    """A plate with its frame, seven characters, a bolt, two specks and a sliver from the frame to the A."""
    picture = Picture(128, 64)
    picture.box(0, 0, 127, 63)
    picture.box(3, 3, 124, 60, 0)
    picture.text("HAL380K", 12, 15, 16, 4)
    picture.stroke((64, 8), (64, 8), 6)
    picture.box(23, 54, 24, 55)
    picture.box(72, 57, 72, 57)
    picture.box(31, 3, 32, 13)
    return picture


def mask(crop):
    """What the plate shows in the seven windows where characters stand."""
    picture = Picture(crop.width, crop.height)
    for left in range(9, 9 + 7 * 16, 16):
        for y in range(13, 51):
            picture.rows[y][left:left + 14] = crop.rows[y][left:left + 14]
    return picture


def bolt_beside_3():
    """A bolt on the open side of a 3: slivers of shadow close both bays, as in an 8."""
    picture = Picture(30, 42)
    picture.character("3", 18, 4, 4)
    picture.stroke((7, 20), (7, 20), 10)
    picture.stroke((8, 18), (18, 8), 2)
    picture.stroke((8, 20), (21, 20), 2)
    picture.stroke((8, 22), (18, 34), 2)
    return picture


def specks():
    """Characters with specks of mud: dark ones beside the strokes, light ones on them."""
    picture = Picture(75, 48)
    picture.text("K308", 10, 7, 16, 4)
    seed = 1
    for _ in range(60):
        seed = (seed * 1103515245 + 12345) % 2**31
        x, y = (seed >> 8) % 73 + 1, (seed >> 16) % 46 + 1
        picture.rows[y][x] = 1 - picture.rows[y][x]
    return picture


def cut_on_the_left():
    """An 8 that the frame cuts on the left, under a shadow: an erosion that takes its left edge makes it a 3."""
    picture = Picture(20, 44)
    picture.character("8", 0, 5, 4)
    picture.box(0, 0, 19, 1)
    return picture


def main():
    here = Path(__file__).resolve().parent
    crop = plate()
    (here / "plate.pbm").write_bytes(crop.packed())
    (here / "mask.pbm").write_bytes(mask(crop).packed())
    (here / "bolt_beside_3.pbm").write_bytes(bolt_beside_3().plain("a bolt on the open side of a 3"))
    (here / "specks.pbm").write_bytes(specks().packed())
    (here / "cut_on_the_left.pbm").write_bytes(cut_on_the_left().plain("an 8 that is cut on the left, under a shadow"))


if __name__ == "__main__":
    main()
