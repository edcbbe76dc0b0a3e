#!/usr/bin/env python3
"""How many processor seconds the gate spends on each crate, and on what.

    tools/gate_times.py run LOG COMMAND..   runs the command (`rt ci --anew`, say) and writes the log LOG
    tools/gate_times.py table LOG           prints the log as a table for docs/GATE.md, the longest chain of crates below it

While the command runs, the processor time of each process of the prover that it has started is read from /proc, twice
a second. A process works on the crate that its words name: on its proof, on its tests (`--test`), on the empty base that its edits start from
or on an edit (in a folder of their own).
"""
import os
import subprocess
import sys
import time

KINDS = ("proof", "tests", "edits", "build")
TICKS = os.sysconf("SC_CLK_TCK")


def read(path):
    try:
        with open(path, "rb") as file:
            return file.read()
    except OSError:
        return b""


def kind_of(words, folder):
    """What a process of the prover works on."""
    if "/rt-edit-" in folder:
        return "edits"
    if "--test" in words:
        return "tests"
    return "build" if words[1:2] == ["link"] else "proof"


def below(top):
    """The processes that the process `top` has started, and those that they have."""
    children = {}
    for pid in filter(str.isdigit, os.listdir("/proc")):
        stat = read(f"/proc/{pid}/stat").decode(errors="replace").rpartition(")")[2].split()
        if len(stat) > 1:
            children.setdefault(stat[1], []).append(pid)
    found, next_ones = [], [str(top)]
    while next_ones:
        found += next_ones
        next_ones = [child for pid in next_ones for child in children.get(pid, [])]
    return found


def seen(top):
    """Each process of the prover below one: its key, crate, kind and processor seconds."""
    for pid in below(top):
        words = read(f"/proc/{pid}/cmdline").decode(errors="replace").split("\0")
        if not words[0].endswith("/rattle") or "--crate-name" not in words[:-1]:
            continue
        stat = read(f"/proc/{pid}/stat").decode(errors="replace").rpartition(")")[2].split()
        if len(stat) < 20:
            continue
        try:
            folder = os.readlink(f"/proc/{pid}/cwd")
        except OSError:
            continue
        crate = words[words.index("--crate-name") + 1]
        seconds = (int(stat[11]) + int(stat[12])) / TICKS
        yield (pid, stat[19]), crate, kind_of(words, folder), seconds


def run(log, command):
    """Runs the command, and writes the seconds of each crate and kind, and those of the whole run."""
    most = {}
    start = time.time()
    child = subprocess.Popen(command)
    while child.poll() is None:
        for key, crate, kind, seconds in seen(child.pid):
            last = most.get(key, (crate, kind, 0.0))[2]
            most[key] = (crate, kind, max(last, seconds))
        time.sleep(0.5)
    used = os.times()
    sums = {}
    for crate, kind, seconds in most.values():
        sums[crate, kind] = sums.get((crate, kind), 0.0) + seconds
    with open(log, "w") as file:
        for (crate, kind), seconds in sorted(sums.items()):
            file.write(f"{crate} {kind} {seconds:.1f}\n")
        file.write(f"whole wall {time.time() - start:.1f}\n")
        file.write(f"whole processor {used.children_user + used.children_system:.1f}\n")
    return child.returncode


def crates():
    """The crates of the repository with those of it that each stands on."""
    top = os.path.join(os.path.dirname(os.path.abspath(__file__)), "..", "crates.txt")
    with open(top) as file:
        lines = [line.split("#")[0].split() for line in file]
    deps = {words[0].rstrip(":"): words[1:] for words in lines if words}
    return {crate: [dep for dep in below if dep in deps] for crate, below in deps.items()}


def longest_chain(deps, seconds):
    """The chain of crates whose proofs take longest one after another, lowest first."""
    chains = {}

    def chain(crate):
        if crate not in chains:
            below = max((chain(dep) for dep in deps[crate]), default=(0.0, []))
            chains[crate] = (below[0] + seconds.get((crate, "proof"), 0.0), below[1] + [crate])
        return chains[crate]

    return max(chain(crate) for crate in deps)


def table(log):
    with open(log) as file:
        rows = [line.split() for line in file]
    seconds = {(crate, kind): float(n) for crate, kind, n in rows}
    deps = crates()
    print("| crate | " + " | ".join(KINDS[:3]) + " |")
    print("|---" * 4 + "|")
    for crate in sorted(deps, key=lambda c: -sum(seconds.get((c, k), 0.0) for k in KINDS)):
        cells = (f"{seconds.get((crate, kind), 0.0):.0f}" for kind in KINDS[:3])
        print(f"| `{crate}` | " + " | ".join(cells) + " |")
    sums = (f"{sum(seconds.get((crate, kind), 0.0) for crate in deps):.0f}" for kind in KINDS[:3])
    print("| all | " + " | ".join(sums) + " |")
    length, chain = longest_chain(deps, seconds)
    print(f"\nThe longest chain takes {length:.0f} s of proofs: " + ", ".join(f"`{c}`" for c in chain) + ".")
    wall, processor = (seconds["whole", kind] / 60 for kind in ("wall", "processor"))
    print(f"The whole run took {wall:.0f} minutes, and {processor:.0f} minutes of processor time.")


def main(words):
    if words[1:2] == ["run"] and len(words) > 3:
        return run(words[2], words[3:])
    if words[1:2] == ["table"] and len(words) == 3:
        return table(words[2])
    print(__doc__.strip(), file=sys.stderr)
    return 2


if __name__ == "__main__":
    sys.exit(main(sys.argv))
