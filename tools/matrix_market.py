#!/usr/bin/env python3
"""Turns Matrix Market and FROSTT (.tns) files into tensor text, and back. Unproved; Python's standard library alone.

    tools/matrix_market.py tensor NAME LEVELS [FILE]      Matrix Market -> tensor text
    tools/matrix_market.py matrix [FILE]                  tensor text of a matrix or a vector -> Matrix Market
    tools/matrix_market.py from-tns NAME LEVELS [--shape N,N,..] [FILE]      .tns -> tensor text
    tools/matrix_market.py to-tns [FILE]                  tensor text -> .tns
    tools/matrix_market.py test                           tries all of it on cases of its own

Without FILE standard input is read. LEVELS is `dense`, `list`, `dict`, `band` or `runs` for each dimension, apart by
commas, as in `dense,list`; one level alone turns a matrix of one column or one row into a vector.
Of Matrix Market `coordinate` and `array` are read, `integer`, `pattern` (every entry is 1) and `real` where each value is
whole, `general`, `symmetric` and `skew-symmetric`. Values are whole, from -2^63 to 2^63-1. These files count from 1,
tensors from 0. A .tns doesn't tell its shape: give --shape, or it is the greatest coordinates (a comment
`# shape N N ..`, which to-tns writes, is read). The fill is 0, and a tensor with another one is refused. Of several
tensors the first is taken, and of a job the first behind `%%`.

Status: 0, or 2 with a line that says what couldn't be read, and where.
"""
import sys

from entry_files import as_vector, matrix_text, read_matrix, read_tns, tns_text
from tensor_text import Refused, check_name, read_any, read_levels, tensor_text


def to_tensor(name, levels, text):
    check_name(name)
    levels = read_levels(levels)
    if len(levels) > 2:
        raise Refused(f"{len(levels)} levels: a Matrix Market file holds a matrix, or with one level a vector")
    shape, entries = read_matrix(text)
    return tensor_text(name, levels, *(as_vector(shape, entries) if len(levels) == 1 else (shape, entries)))


def from_tns(name, levels, text, shape=None):
    check_name(name)
    levels = read_levels(levels)
    return tensor_text(name, levels, *read_tns(text, shape))


def first_tensor(text):
    """The shape and the entries of the first tensor."""
    _, fill, shape, entries = next(iter(read_any(text).values()))
    if fill != 0:
        raise Refused(f"the fill is {fill}; these files leave out zeros alone")
    return tuple(shape), entries


def to_matrix(text):
    return matrix_text(*first_tensor(text))


def to_tns(text):
    return tns_text(*first_tensor(text))


def read_shape(words):
    """The shape of the words `--shape N,N,..`, if they stand there, and the words without them."""
    if "--shape" not in words:
        return None, words
    at = words.index("--shape")
    numbers = words[at + 1].split(",") if len(words) > at + 1 else []
    if not numbers or not all(number.isdecimal() for number in numbers):
        raise Refused("behind --shape stand extents, apart by commas, as in --shape 4,5,6")
    return tuple(map(int, numbers)), words[:at] + words[at + 2:]


def text_of(words):
    """What stands in the file that is named, or on standard input."""
    try:
        if not words:
            return sys.stdin.buffer.read().decode()
        with open(words[0], "rb") as file:
            return file.read().decode()
    except OSError as wrong:
        raise Refused(f"{words[0]} can't be read: {wrong.strerror}")
    except UnicodeDecodeError:
        raise Refused(f"{words[0] if words else 'standard input'} is no text; if it is packed, unpack it first")


GENERAL = "%%MatrixMarket matrix coordinate integer general\n% a comment\n3 4 4\n1 1 2\n1 4 -1\n2 2 7\n3 3 5\n"
PATTERN = "%%MatrixMarket matrix coordinate pattern symmetric\n3 3 3\n2 1\n3 2\n3 3\n"
SKEW = "%%MatrixMarket matrix array integer skew-symmetric\n3 3\n4\n0\n6\n"
WHOLE = "%%MatrixMarket matrix coordinate real general\n2 2 2\n1 2 3.0\n2 1 -2e3\n"
COLUMN = "%%MatrixMarket matrix coordinate integer general\n6 1 2\n3 1 4\n5 1 5\n"
CUBE = "# shape 2 3 4\n1 1 1 5\n1 3 4 -7\n2 2 1 9\n"
WRONG_MATRICES = {
    "": "line 1: this doesn't begin with",
    "3 4 4\n": "line 1: this doesn't begin with",
    "%%MatrixMarket vector coordinate integer general\n": "line 1: wanted is",
    WHOLE.replace("3.0", "3.5"): "line 3: 3.5 isn't whole",
    WHOLE.replace("real", "complex"): "line 1: coordinate complex isn't read",
    GENERAL.replace("3 4 4", "2 4 4"): "line 7: the entry 3 3 lies outside",
    GENERAL.replace("3 4 4", "3 4"): "line 3: the line of sizes has 2 numbers",
    GENERAL.replace("3 4 4", "3 x 4"): "line 3: 'x' is no size",
    GENERAL.replace("3 4 4", "3 4 5"): "the line of sizes says 5 entries, and there are 4",
    GENERAL.replace("-1", "one"): "line 5: 'one' is no number",
    GENERAL.replace("1 4 -1", "1 1 8"): "line 5: the entry 1 1 stands twice",
    GENERAL.replace("1 4 -1", "1 4"): "line 5: an entry is row column value",
    GENERAL.replace("-1", "9223372036854775808"): "line 5: 9223372036854775808 is no 64-bit number",
    PATTERN.replace("3 3 3", "3 4 3"): "line 2: a symmetric matrix is square",
    GENERAL.split("3 4 4")[0]: "the line of sizes is missing",
}
WRONG_WORDS = {
    ("for", "dense,list"): "'for' is a word of the language",
    ("a-b", "dense,list"): "'a-b' is no name",
    ("a" * 33, "dense,list"): "the name",
    ("A", "dense,sparse"): "'sparse' is no level",
    ("A", "runs,dense"): "runs stands as the last level alone",
    ("A", "list"): "a matrix of 3 rows and 4 columns is no vector",
    ("A", "dense,list,list"): "3 levels: a Matrix Market file",
}


def refusal(call, *given):
    try:
        call(*given)
    except Refused as why:
        return str(why)
    return "nothing was refused"


def test():
    want = "tensor A\nformat dense list element\nfill 0\nshape 3 4\nptr 1 0 2 3 4\nidx 1 0 3 1 2\nval 2 -1 7 5\nend\n"
    assert to_tensor("A", "dense,list", GENERAL) == want
    assert to_tensor("x", "runs", COLUMN).endswith("shape 6\nptr 0 0 5\nstop 0 2 3 4 5 6\nval 0 4 0 5 0\nend\n")
    assert to_tensor("x", "band", COLUMN).endswith("shape 6\nptr 0 0 3\nstart 0 2\nval 4 0 5\nend\n")
    assert to_matrix(to_tensor("x", "list", COLUMN)) == COLUMN
    assert read_matrix(PATTERN)[1] == {(1, 0): 1, (0, 1): 1, (2, 1): 1, (1, 2): 1, (2, 2): 1}
    assert {at: v for at, v in read_matrix(SKEW)[1].items() if v} == {(1, 0): 4, (0, 1): -4, (2, 1): 6, (1, 2): -6}
    for text in (GENERAL, PATTERN, SKEW, WHOLE):
        shape, entries = read_matrix(text)
        stored = {at: v for at, v in entries.items() if v != 0}
        for outer in ("dense", "list", "dict", "band"):
            for inner in ("dense", "list", "dict", "band", "runs"):
                assert read_matrix(to_matrix(to_tensor("A", f"{outer},{inner}", text))) == (shape, stored)
    for levels in ("dense,list,list", "list,dict,band", "band,dense,runs", "dict,list,dense"):
        assert to_tns(from_tns("T", levels, CUBE)) == CUBE
    assert read_tns("2 2 1.0\n") == ((2, 2), {(1, 1): 1}) and read_tns("2 2 1\n", (9, 9))[0] == (9, 9)
    for text, why in WRONG_MATRICES.items():
        assert refusal(to_tensor, "A", "dense,list", text).startswith(why), (text, refusal(read_matrix, text))
    for words, why in WRONG_WORDS.items():
        assert refusal(to_tensor, *words, GENERAL).startswith(why), words
    assert refusal(from_tns, "T", "list,list", CUBE) == "2 levels for 3 dimensions"
    assert refusal(read_tns, "1 1 5\n1 5\n") == "line 2: 1 coordinates, and 2 dimensions"
    assert refusal(to_tensor, "A", "dense,dense", COLUMN.replace("6 1 2", "99999999 2 2")).startswith("the dense levels")
    assert refusal(to_matrix, want.replace("fill 0", "fill 3")).startswith("the fill is 3")
    assert refusal(to_matrix, want.replace("val 2", "val two")).startswith("not the text of tensors")
    print("matrix_market.py: as it should be")


def answer(words):
    """What the words ask for, or None where they ask for nothing that there is."""
    shape, rest = read_shape(words) if words[:1] == ["from-tns"] else (None, words)
    if len(rest) in (3, 4) and rest[0] == "tensor":
        return to_tensor(rest[1], rest[2], text_of(rest[3:]))
    if len(rest) in (3, 4) and rest[0] == "from-tns":
        return from_tns(rest[1], rest[2], text_of(rest[3:]), shape)
    if len(rest) in (1, 2) and rest[0] in ("matrix", "to-tns"):
        return (to_matrix if rest[0] == "matrix" else to_tns)(text_of(rest[1:]))
    return None


def main(words):
    if words == ["test"]:
        return test()
    try:
        text = answer(words)
    except Refused as why:
        print(f"matrix_market.py: {why}", file=sys.stderr)
        return 2
    if text is None:
        print(__doc__, file=sys.stderr)
        return 2
    sys.stdout.write(text)
    return 0


if __name__ == "__main__":
    sys.exit(main(sys.argv[1:]))
