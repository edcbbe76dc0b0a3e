"""Pictures of coloured rectangles, as PNG or SVG, for the scripts beside it. Unproved; Python's standard library alone."""
import struct
import zlib

# Digits and signs, five rows of three dots each, a row as the number of its dots.
GLYPHS = {"0": (7, 5, 5, 5, 7), "1": (2, 6, 2, 2, 7), "2": (7, 1, 7, 4, 7), "3": (7, 1, 7, 1, 7), "4": (5, 5, 7, 1, 1),
          "5": (7, 4, 7, 1, 7), "6": (7, 4, 7, 5, 7), "7": (7, 1, 2, 2, 2), "8": (7, 5, 7, 5, 7), "9": (7, 5, 7, 1, 7),
          "-": (0, 0, 7, 0, 0)}
DOT = 2
TEXT_HEIGHT = 5 * DOT


def text_width(text):
    return DOT * (4 * len(text) - 1)


class Picture:
    """A white sheet on which rectangles are laid, later ones over earlier ones."""

    def __init__(self, width, height):
        self.width, self.height, self.rectangles = width, height, []

    def lay(self, x, y, width, height, colour):
        """A rectangle, or what of it lies on the sheet."""
        left, top = max(x, 0), max(y, 0)
        right, bottom = min(x + width, self.width), min(y + height, self.height)
        if left < right and top < bottom:
            self.rectangles.append((left, top, right - left, bottom - top, colour))

    def write(self, x, y, text, colour):
        """Digits and signs with their upper left corner at a place."""
        for k, sign in enumerate(text):
            for row, dots in enumerate(GLYPHS[sign]):
                for column in range(3):
                    if dots >> (2 - column) & 1:
                        self.lay(x + DOT * (4 * k + column), y + DOT * row, DOT, DOT, colour)

    def svg(self):
        lines = [f'<svg xmlns="http://www.w3.org/2000/svg" width="{self.width}" height="{self.height}" '
                 f'viewBox="0 0 {self.width} {self.height}" shape-rendering="crispEdges">',
                 f'<path fill="#ffffff" d="M0 0h{self.width}v{self.height}h-{self.width}z"/>']
        last = None
        for x, y, width, height, colour in self.rectangles:
            if colour != last:
                lines += ["", '<path fill="#%02x%02x%02x" d="' % colour]
                last = colour
            lines[-1] += f"M{x} {y}h{width}v{height}h-{width}z"
        closed = [line + ('"/>' if line.startswith("<path") and not line.endswith("/>") else "") for line in lines]
        return "\n".join([line for line in closed if line] + ["</svg>", ""]).encode()

    def rows(self):
        """The colours of each row of dots, three bytes a dot."""
        rows = [bytearray(b"\xff" * (3 * self.width)) for _ in range(self.height)]
        for x, y, width, height, colour in self.rectangles:
            for row in rows[y:y + height]:
                row[3 * x:3 * (x + width)] = bytes(colour) * width
        return rows

    def png(self):
        chunk = lambda kind, data: struct.pack(">I", len(data)) + kind + data + struct.pack(">I", zlib.crc32(kind + data))
        # Eight bits for each of red, green and blue; before each row the number 0, which says that it stands as it is.
        head = struct.pack(">IIBBBBB", self.width, self.height, 8, 2, 0, 0, 0)
        body = zlib.compress(b"".join(b"\0" + bytes(row) for row in self.rows()), 9)
        return b"\x89PNG\r\n\x1a\n" + chunk(b"IHDR", head) + chunk(b"IDAT", body) + chunk(b"IEND", b"")


def dots_of(png):
    """The bytes of the dots of a picture that `png` made, to hold two of them side by side."""
    at, data = 8, b""
    while at < len(png):
        size, kind = struct.unpack(">I4s", png[at:at + 8])
        data += png[at + 8:at + 8 + size] if kind == b"IDAT" else b""
        at += size + 12
    return zlib.decompress(data)
