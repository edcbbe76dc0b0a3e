"""Reads and writes files that list the entries of a tensor: Matrix Market's, and FROSTT's (`.tns`). Unproved.

A tensor is its shape and its entries, a value at each coordinate list, counted from 0. Both kinds of file count from 1.
"""
from fractions import Fraction
import re

from tensor_text import Refused

SMALLEST, GREATEST = -(2 ** 63), 2 ** 63 - 1
BANNER = "%%MatrixMarket matrix coordinate integer general"


def number(word, line, what):
    if not re.fullmatch("[0-9]+", word):
        raise Refused(f"{word!r} is no {what}", line)
    return int(word)


def value(word, line):
    """A whole number; it may be written with a point or an exponent, as 3.0 and 2e3 are."""
    if not re.fullmatch(r"[-+]?([0-9]+\.?[0-9]*|\.[0-9]+)([eE][-+]?[0-9]{1,2})?", word):
        raise Refused(f"{word!r} is no number", line)
    exact = Fraction(word) if re.search("[.eE]", word) else int(word)
    if exact != int(exact):
        raise Refused(f"{word} isn't whole, and the language has whole numbers alone: scale the values first", line)
    if not SMALLEST <= exact <= GREATEST:
        raise Refused(f"{word} is no 64-bit number", line)
    return int(exact)


def from_one(at):
    return " ".join(str(i + 1) for i in at)


class Entries:
    """Entries that come one after another, each inside a shape and once."""

    def __init__(self, shape):
        self.shape, self.entries = shape, {}

    def put(self, at, value, line):
        if any(not 0 <= i < extent for i, extent in zip(at, self.shape)):
            most = " ".join(map(str, self.shape))
            raise Refused(f"the entry {from_one(at)} lies outside: coordinates go from 1 to {most}", line)
        if at in self.entries:
            raise Refused(f"the entry {from_one(at)} stands twice", line)
        self.entries[at] = value

    def put_both(self, at, value, line, symmetry):
        """An entry, and the one across the diagonal that a symmetric file leaves out."""
        self.put(at, value, line)
        if symmetry != "general" and at[0] != at[1]:
            self.put(at[::-1], value if symmetry == "symmetric" else -value, line)


def read_matrix(text):
    """The shape and the entries of a Matrix Market file."""
    layout, field, symmetry = read_banner(text.splitlines()[:1])
    rows = [(n, line.split()) for n, line in enumerate(text.splitlines(), 1)
            if line.strip() and not line.startswith("%")]
    if not rows:
        raise Refused("the line of sizes is missing")
    line, words = rows[0]
    wanted = ["rows", "columns", "entries"] if layout == "coordinate" else ["rows", "columns"]
    if len(words) != len(wanted):
        raise Refused(f"the line of sizes has {len(words)} numbers; wanted are {', '.join(wanted)}", line)
    sizes = [number(word, line, "size") for word in words]
    if symmetry != "general" and sizes[0] != sizes[1]:
        raise Refused(f"a {symmetry} matrix is square", line)
    read = read_coordinates if layout == "coordinate" else read_array
    return tuple(sizes[:2]), read(sizes, rows[1:], field, symmetry)


def read_banner(lines):
    """The layout, field and symmetry that the first line names."""
    words = lines[0].lower().split() if lines else []
    if words[:1] != ["%%matrixmarket"]:
        raise Refused("this doesn't begin with %%MatrixMarket, so it is no Matrix Market file", 1)
    if len(words) != 5 or words[1] != "matrix":
        raise Refused("wanted is `%%MatrixMarket matrix LAYOUT FIELD SYMMETRY`", 1)
    layout, field, symmetry = words[2:]
    if layout not in ("coordinate", "array") or field not in ("integer", "real", "pattern"):
        raise Refused(f"{layout} {field} isn't read: coordinate or array, integer, real or pattern", 1)
    if layout == "array" and field == "pattern":
        raise Refused("an array has values, so it is no pattern", 1)
    if symmetry not in ("general", "symmetric", "skew-symmetric"):
        raise Refused(f"{symmetry} isn't read: general, symmetric or skew-symmetric", 1)
    return layout, field, symmetry


def read_coordinates(sizes, rows, field, symmetry):
    if len(rows) != sizes[2]:
        raise Refused(f"the line of sizes says {sizes[2]} entries, and there are {len(rows)}")
    made = Entries(sizes[:2])
    wanted = 2 if field == "pattern" else 3
    for line, words in rows:
        if len(words) != wanted:
            raise Refused(f"an entry is {'row column' if wanted == 2 else 'row column value'}", line)
        at = tuple(number(word, line, "coordinate") - 1 for word in words[:2])
        made.put_both(at, 1 if wanted == 2 else value(words[2], line), line, symmetry)
    return made.entries


def read_array(sizes, rows, field, symmetry):
    values = [(value(word, line), line) for line, words in rows for word in words]
    # Columns one after another; of a symmetric matrix only what stands on and below the diagonal.
    first = {"general": lambda j: 0, "symmetric": lambda j: j, "skew-symmetric": lambda j: j + 1}[symmetry]
    places = [(i, j) for j in range(sizes[1]) for i in range(first(j), sizes[0])]
    if len(values) != len(places):
        raise Refused(f"{len(values)} values for {len(places)} places")
    made = Entries(sizes[:2])
    for at, (one, line) in zip(places, values):
        made.put_both(at, one, line, symmetry)
    return made.entries


def as_vector(shape, entries):
    """A matrix of one column or one row, as a vector."""
    if 1 not in shape:
        raise Refused(f"a matrix of {shape[0]} rows and {shape[1]} columns is no vector: name two levels")
    along = 0 if shape[1] == 1 else 1
    return (shape[along],), {(at[along],): value for at, value in entries.items()}


def matrix_text(shape, entries):
    if len(shape) not in (1, 2):
        raise Refused(f"{len(shape)} dimensions: Matrix Market holds a vector or a matrix; write it as .tns (to-tns)")
    rows, columns = (shape[0], 1) if len(shape) == 1 else shape
    stored = sorted((at if len(at) == 2 else (at[0], 0), value) for at, value in entries.items() if value)
    head = [BANNER, f"{rows} {columns} {len(stored)}"]
    return "\n".join(head + [f"{i + 1} {j + 1} {value}" for (i, j), value in stored] + [""])


def read_tns(text, shape=None):
    """The shape and the entries of a FROSTT file: on each line the coordinates of an entry, and its value.

    Such a file doesn't tell its shape. It is the one that is given, or that of a comment `# shape N N ..`, or else the
    greatest coordinates."""
    rows = []
    for line, words in enumerate((line.split() for line in text.splitlines()), 1):
        if words[:2] == ["#", "shape"] and shape is None:
            shape = tuple(number(word, line, "extent") for word in words[2:])
        if words and not words[0].startswith("#"):
            rows.append((line, tuple(number(word, line, "coordinate") - 1 for word in words[:-1]), value(words[-1], line)))
    if shape is None:
        if not rows:
            raise Refused("no entry, so that the shape isn't known: give --shape")
        shape = tuple(max(one) + 1 for one in zip(*(at for _, at, _ in rows if len(at) == len(rows[0][1]))))
    made = Entries(shape)
    for line, at, one in rows:
        if len(at) != len(shape):
            raise Refused(f"{len(at)} coordinates, and {len(shape)} dimensions", line)
        made.put(at, one, line)
    return shape, made.entries


def tns_text(shape, entries):
    stored = sorted((at, value) for at, value in entries.items() if value)
    head = " ".join(["# shape", *map(str, shape)])
    return "\n".join([head] + [f"{from_one(at)} {value}" for at, value in stored] + [""])
