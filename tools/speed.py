#!/usr/bin/env python3
"""Measures the built program on large jobs: processor seconds of each call, the machine's other work aside.

    tools/speed.py [PROGRAM]      (default: crates/finch/out/finch)
"""
import pathlib
import random
import resource
import subprocess
import sys

ROOT = pathlib.Path(__file__).resolve().parent.parent


def tensor(name, levels, shape, *lines):
    return "\n".join([f"tensor {name}", f"format {levels} element", "fill 0", f"shape {shape}", *lines, "end", ""])


def numbers(head, values):
    return " ".join([head, *map(str, values)])


def long_text():
    """8 MB of text in one tensor."""
    values = numbers("val", ((k * 7919) % 1000000 for k in range(1170000)))
    return "in a dense element\n%%\n" + tensor("a", "dense", 1170000, values)


def many_tensors():
    """100,000 tensors that no header names."""
    return "out s element\ns .= 0\n%%\n" + "".join(tensor(f"t{k}", "dense", 1, "val 1") for k in range(100000))


def many_ties(loops):
    """64 headers and so many loops, each with eight ties."""
    names = [f"a{k}" for k in range(63)]
    heads = "".join(f"in {name} dense element\n" for name in names) + "out y dense element\ny .= 0\n"
    read = lambda k: "*".join(f"{names[(k + 9 * n) % 63]}[i]" for n in range(7))
    body = "".join(f"for i{{y[i]+={read(k)}}}\n" for k in range(loops))
    return heads + body + "%%\n" + "".join(tensor(name, "dense", 2, "val 1 2") for name in names)


def product(rows):
    """A sparse matrix with five values in each row by a vector."""
    chance = random.Random(1)
    kept = [sorted(chance.sample(range(rows), 5)) for _ in range(rows)]
    matrix = tensor("A", "dense list", f"{rows} {rows}", numbers("ptr 1", range(0, 5 * rows + 1, 5)),
                    numbers("idx 1", (j for row in kept for j in row)), numbers("val", [3] * (5 * rows)))
    vector = tensor("x", "dense", rows, numbers("val", range(rows)))
    program = (ROOT / "examples" / "spmv.job").read_text().split("%%\n")[0]
    return program + "%%\n" + matrix + vector


def measure(program, mode, what, job):
    before = resource.getrusage(resource.RUSAGE_CHILDREN)
    done = subprocess.run([program, mode], input=job.encode(), stdout=subprocess.DEVNULL, stderr=subprocess.PIPE)
    after = resource.getrusage(resource.RUSAGE_CHILDREN)
    seconds = after.ru_utime + after.ru_stime - before.ru_utime - before.ru_stime
    print(f"{mode:5} {what:44} {seconds:7.2f} s  status {done.returncode} {done.stderr.decode().strip()}", flush=True)


def main(words):
    program = words[0] if words else str(ROOT / "crates" / "finch" / "out" / "finch")
    most = resource.getrlimit(resource.RLIMIT_STACK)[1]
    resource.setrlimit(resource.RLIMIT_STACK, (most, most))
    measure(program, "check", "8 MB of text with one tensor", long_text())
    measure(program, "check", "100,000 tensors that no header names", many_tensors())
    for loops in (100000, 200000):
        measure(program, "check", f"{loops:,} loops and {8 * loops:,} ties", many_ties(loops))
    for rows in (250, 1000, 4000):
        job = product(rows)
        for mode in ("run", "plain"):
            measure(program, mode, f"a sparse matrix of {rows} rows by a vector", job)


if __name__ == "__main__":
    main(sys.argv[1:])
