"""Reads and writes tensor text, for the scripts beside it. Unproved; what it reads it takes to be valid."""
import re

LEVELS = ("dense", "list", "dict", "band", "runs")
RESERVED = set("in out tmp fill shape for par if let freeze thaw walk gallop follow min max and or xor "
               "dense list runs band dict element atomic mutex shard".split())
MOST_LEVELS, MOST_PLACES, MOST_EXTENT = 8, 2 ** 24, 2 ** 40


class Refused(Exception):
    """What can't be read or written, in one line, with the line of the file where there is one."""

    def __init__(self, why, line=None):
        super().__init__(why if line is None else f"line {line}: {why}")


def read_tensors(text):
    """The tensors of a text by name: levels, fill, shape, and the values at each stored coordinate list."""
    tensors, lines = {}, []
    for line in text.splitlines():
        if not lines and (not line or line.startswith("#")):
            continue
        lines.append(line.split())
        if line == "end":
            name, tensor = read_one(lines)
            tensors[name], lines = tensor, []
    return tensors


def read_any(text):
    """The tensors of a text that may be anything; those behind `%%` where it is a job."""
    front, mark, back = ("\n" + text).partition("\n%%\n")
    try:
        tensors = read_tensors(back if mark else text)
    except (ValueError, IndexError, KeyError):
        raise Refused("not the text of tensors; `finch check` tells the line and the rule that it breaks")
    if not tensors:
        raise Refused("no tensor: nothing begins with `tensor NAME` and ends with the line `end`")
    return tensors


def read_one(lines):
    levels, fill = lines[1][1:-1], int(lines[2][1])
    shape = [int(word) for word in lines[3][1:]]
    rows = {tuple(row[:2]): [int(word) for word in row[2:]] for row in lines[4:] if row[0] in ("ptr", "idx", "stop", "start")}
    values = [int(word) for row in lines[4:] if row[0] == "val" for word in row[1:]]
    positions = [((), 0)]
    for k, level in enumerate(levels):
        positions = [(p + (i,), q) for p, pos in positions for i, q in children(level, str(k), rows, shape[k], pos)]
    return lines[0][1], (levels, fill, shape, {p: values[pos] for p, pos in positions})


def children(level, k, rows, extent, pos):
    if level == "dense":
        return [(i, pos * extent + i) for i in range(extent)]
    first, last = rows["ptr", k][pos], rows["ptr", k][pos + 1]
    if level == "band":
        return [(rows["start", k][pos] + q - first, q) for q in range(first, last)]
    if level == "runs":
        stops = rows["stop", k]
        if extent > MOST_PLACES:
            raise Refused(f"runs over {extent} coordinates: that is too many to list them")
        begin = lambda q: stops[q - 1] if q > first else 0
        return [(i, q) for q in range(first, last) for i in range(begin(q), stops[q])]
    return [(rows["idx", k][q], q) for q in range(first, last)]


def check_name(name):
    """That the language takes a name."""
    if not re.fullmatch("[A-Za-z_][A-Za-z0-9_]*", name):
        raise Refused(f"{name!r} is no name: a letter or _, then letters, digits and _")
    if len(name) > 32:
        raise Refused(f"the name {name!r} is longer than 32 bytes")
    if name in RESERVED:
        raise Refused(f"{name!r} is a word of the language, so no tensor can have it as its name")


def read_levels(words):
    """The levels that stand apart by commas."""
    levels = words.split(",")
    for level in levels:
        if level not in LEVELS:
            raise Refused(f"{level!r} is no level: {', '.join(LEVELS)}, apart by commas, as in dense,list")
    if "runs" in levels[:-1]:
        raise Refused("runs stands as the last level alone")
    if len(levels) > MOST_LEVELS:
        raise Refused(f"{len(levels)} levels; a tensor has at most {MOST_LEVELS}")
    return levels


def check_size(levels, shape):
    """That the language takes tensors of this shape in these levels."""
    if len(levels) != len(shape):
        raise Refused(f"{len(levels)} levels for {len(shape)} dimensions")
    places = 1
    for level, extent in zip(levels, shape):
        if extent > MOST_EXTENT:
            raise Refused(f"the extent {extent} is over 2^40")
        places *= extent if level == "dense" and extent else 1
    if places > MOST_PLACES:
        raise Refused(f"the dense levels would have {places} places, over 2^24: use list or dict (rule B1)")


def tensor_text(name, levels, shape, entries, fill=0):
    """The canonical text of the tensor that has these entries, and the fill elsewhere."""
    check_name(name)
    check_size(levels, shape)
    fibres, lines = [sorted(entry for entry in entries.items() if entry[1] != fill)], []
    for k, level in enumerate(levels):
        kept = [stored(level, fibre, k, shape[k], fill) for fibre in fibres]
        starts = [0]
        for _, below in kept:
            starts.append(starts[-1] + len(below))
        numbers = [number for listed, _ in kept for number in listed]
        second = {"dense": None, "band": "start", "runs": "stop"}.get(level, "idx")
        lines += [(f"ptr {k}", starts), (f"{second} {k}", numbers)] if second else []
        fibres = [fibre for _, below in kept for fibre in below]
    values = [fibre[0][1] if fibre else fill for fibre in fibres]
    words = lambda head, numbers: " ".join([head] + [str(n) for n in numbers])
    head = [f"tensor {name}", " ".join(["format", *levels, "element"]), f"fill {fill}", words("shape", shape)]
    return "\n".join(head + [words(*line) for line in lines] + [words("val", values), "end", ""])


def stored(level, fibre, k, extent, fill):
    """What a level keeps of one fibre: the numbers of its second list, and the entries below each of its places."""
    below = {}
    for entry in fibre:
        below.setdefault(entry[0][k], []).append(entry)
    if level == "dense":
        return [], [below.get(i, []) for i in range(extent)]
    if level == "band":
        block = range(min(below), max(below) + 1) if below else range(0)
        return [block.start], [below.get(i, []) for i in block]
    if level == "runs":
        return runs(below, extent, fill)
    return list(below), list(below.values())


def runs(below, extent, fill):
    """The stops of the longest runs of equal values, and the entry of each."""
    pieces, last = [], 0
    for i, entries in [*below.items(), (extent, None)]:
        pieces += [(i, [])] if i > last else []
        pieces += [(i + 1, entries)] if entries else []
        last = i + 1
    value = lambda piece: piece[1][0][1] if piece[1] else fill
    kept = [p for p, after in zip(pieces, pieces[1:] + [None]) if after is None or value(p) != value(after)]
    return [stop for stop, _ in kept], [entries for _, entries in kept]
