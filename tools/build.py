#!/usr/bin/env python3
"""Proves and builds the program by `rt run` in its crate, and tells how far that is. `./finch --build` calls it.

    tools/build.py          proves and builds crates/finch/out/finch; what rt says goes to crates/finch/out/build.log
    tools/build.py test     tries the reading of rt's lines

Neither tests nor must-fail edits are looked at; `.ci/run` does that. The program is run once on its crate's own `stdin`,
and what it writes is held against `stdout` there. What rt has proved it keeps, so a build that was stopped goes on.
"""
import os
import pathlib
import re
import shutil
import subprocess
import sys
import time

ROOT = pathlib.Path(__file__).resolve().parent.parent
CRATE = ROOT / "crates" / "finch"
BUILT, LOG = CRATE / "out" / "finch", CRATE / "out" / "build.log"
# The first line that rt writes of a crate that it proves, and any line of a part of one.
PROVES = re.compile(r"rt: chose --jobs \d+ for (\w+)$|\w+ (\w+)::\S.*: proved$")


def below(text, top):
    """The crates of the repository that one stands on, and itself, by the text of crates.txt."""
    rows = [line.split("#")[0].replace(":", " ").split() for line in text.splitlines()]
    deps = {row[0]: row[1:] for row in rows if row}
    found, waiting = set(), [top]
    while waiting:
        crate = waiting.pop()
        if crate in deps and crate not in found:
            found.add(crate)
            waiting += deps[crate]
    return found


def proof_seconds(text):
    """The processor seconds of each crate's proof, by the table of docs/GATE.md."""
    return {name: int(seconds) for name, seconds in re.findall(r"^\| `(\w+)` \| (\d+) \|", text, re.M)}


def crate_of(line):
    """The crate of whose proof a line of rt's tells."""
    found = PROVES.match(line.strip())
    return found and (found[1] or found[2])


def say(words):
    print(f"finch: {words}", file=sys.stderr, flush=True)


def minutes(seconds):
    return f"{seconds / 60:.0f} min" if seconds >= 60 else f"{seconds:.0f} s"


def follow(lines, crates, seconds, log):
    """Keeps rt's lines, and tells of each crate when its proof begins."""
    start, seen = time.time(), set()
    for line in lines:
        log.write(line)
        crate = crate_of(line)
        if crate in crates and crate not in seen:
            seen.add(crate)
            say(f"proves {crate} (some {minutes(seconds.get(crate, 60))} of processor time); "
                f"{minutes(time.time() - start)} gone")
    return len(seen)


def build():
    crates = below((ROOT / "crates.txt").read_text(), "finch")
    seconds = proof_seconds((ROOT / "docs" / "GATE.md").read_text())
    say(f"proves and builds {len(crates)} crates, by docs/GATE.md some {minutes(sum(seconds.get(c, 60) for c in crates))} "
        "of processor time from nothing; what is proved is kept, so it may be stopped and called again; "
        "first rt reads all sources, for some minutes")
    LOG.parent.mkdir(exist_ok=True)
    start = time.time()
    with open(CRATE / "stdin", "rb") as job, open(CRATE / "out" / "build.out", "wb") as out, open(LOG, "w") as log:
        words = ["rt", "run", "--", *(CRATE / "args").read_text().split()]
        child = subprocess.Popen(words, cwd=CRATE, stdin=job, stdout=out, stderr=subprocess.PIPE, text=True, errors="replace")
        proved = follow(child.stderr, crates, seconds, log)
    if child.wait() != 0 or not BUILT.exists():
        say(f"not built; {LOG.relative_to(ROOT)} has what rt said, and this is its end:")
        sys.stderr.write("".join(LOG.read_text().splitlines(True)[-12:]))
        return 1
    if (CRATE / "out" / "build.out").read_bytes() != (CRATE / "stdout").read_bytes():
        say("the program that was built doesn't write what crates/finch/stdout says")
        return 1
    # A source that was edited during the build is newer than this.
    os.utime(BUILT, (start, start))
    say(f"built in {minutes(time.time() - start)}, {proved} crates proved anew; './finch' runs this program from now on")
    return 0


def test():
    assert below("a: b c # d\nb: kit\nc:\nd: a\n# e: a\n", "a") == {"a", "b", "c"}
    assert proof_seconds("| crate | proof |\n|---|---|\n| `fin_a` | 81 | 0 | 4 |\n") == {"fin_a": 81}
    assert crate_of("rt: chose --jobs 2 for fin_a\n") == "fin_a"
    assert crate_of("fn fin_a::laws::one: proved\n") == "fin_a" and crate_of("rt: fin_a proved\n") is None
    program = below((ROOT / "crates.txt").read_text(), "finch")
    assert {"finch", "fin_cli", "fin_base"} <= program and "fin_rows" not in program
    assert "fin_base" in proof_seconds((ROOT / "docs" / "GATE.md").read_text())
    print("build.py: as it should be")


def main(words):
    if words == ["test"]:
        return test()
    if words:
        print(__doc__, file=sys.stderr)
        return 2
    if not shutil.which("rt"):
        say("there is no 'rt' here; the Rattle kit is what proves and builds the program")
        return 1
    try:
        return build()
    except KeyboardInterrupt:
        say("stopped; what was proved is kept")
        return 130


if __name__ == "__main__":
    sys.exit(main(sys.argv[1:]))
