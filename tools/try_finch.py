#!/usr/bin/env python3
"""Tries the script `finch` in its three ways, over a small repository and an `rt` that are made for the purpose.

    tools/try_finch.py

The made `rt` builds and tries a program that prints its words and its input.
"""
import os
import pathlib
import shutil
import subprocess
import tempfile
import time

ROOT = pathlib.Path(__file__).resolve().parent.parent
PROGRAM = '#!/usr/bin/env bash\nprintf "<%s>" "$@"\ncat\nexit "${STATUS:-0}"\n'
RT = r'''#!/usr/bin/env bash
verb="$1"; shift 2
echo "rt: chose --jobs 2 for low" >&2
if [ "$verb" = run ] && [ -n "${BREAKS:-}" ]; then echo "not proved" >&2; exit 1; fi
if [ "$verb" = run ]; then
    mkdir -p out && cp ../program out/finch && chmod +x out/finch && exec out/finch "$@"
fi
../program "$@"; status=$?
echo "refused J2 line 0" >&2
if [ -n "${BREAKS:-}" ]; then echo "run=no-answer proved=no" >&2; exit 6; fi
echo "checked: ended status=$status" >&2; echo "run=ended status=$status runners=1 proved=no" >&2
exit "$status"
'''


def write(path, text, mode=0o644):
    path.parent.mkdir(parents=True, exist_ok=True)
    path.write_text(text)
    path.chmod(mode)


def furnish(top):
    """A repository of the program, a crate below it and one that it doesn't stand on."""
    write(top / "crates.txt", "# crates\nlow:\nfinch: low kit\nother: finch\n")
    for source in ("finch/src/main.rt", "low/src/lib.rt", "low/specs/Lib.antt", "low/must-fail/one.edit", "other/src/lib.rt"):
        write(top / "crates" / source, "")
    for name, text in (("stdin", "job"), ("args", "run\n"), ("stdout", "<run>job")):
        write(top / "crates" / "finch" / name, text)
    write(top / "crates" / "program", PROGRAM, 0o755)
    write(top / "docs" / "GATE.md", "| `low` | 5 | 0 | 0 |\n")
    write(top / "bin" / "rt", RT, 0o755)
    shutil.copy(ROOT / "finch", top / "finch")
    os.symlink(top / "finch", top / "bin" / "linked")
    write(top / "tools" / "build.py", (ROOT / "tools" / "build.py").read_text())


class Tries:
    def __init__(self, top):
        self.top, self.failed = top, 0

    def call(self, *words, wanted=(0, "", ()), rt=True, script="finch", **settings):
        """Calls `finch` with words and the input `job`; wanted are status, output, and parts of what it says besides."""
        without = [folder for folder in os.environ["PATH"].split(":") if not os.path.exists(f"{folder}/rt")]
        path = ":".join([str(self.top / "bin")] * rt + without)
        done = subprocess.run([str(self.top / script), *words], input="job", capture_output=True, text=True,
                              env={**os.environ, "PATH": path, **settings}, cwd="/")
        status, printed, said = wanted
        is_silent = bool(said) or not done.stderr
        if (done.returncode, done.stdout) != (status, printed) or not is_silent or any(s not in done.stderr for s in said):
            self.failed += 1
            print(f"finch {' '.join(words)}: wanted {wanted}, got {done}")
        return done.stderr

    def touch(self, name, seconds=10):
        at = time.time() + seconds
        os.utime(self.top / name, (at, at))


def try_all(tries):
    asked = ("run", "two words", "--build", "")
    echoed = "<run><two words><--build><>job"
    quick = ("the program isn't built yet", "quick build without proofs")
    said = tries.call(*asked, wanted=(0, echoed, quick))
    if "run=ended" in said or "checked:" in said or "refused J2 line 0\n" not in said:
        tries.failed += 1
        print(f"the quick build's own lines: {said}")
    tries.call(*asked, wanted=(1, echoed, quick), STATUS="1")
    tries.call(*asked, wanted=(6, echoed, ("no answer from the quick build", "./finch --build")), BREAKS="1")
    tries.call("run", wanted=(6, "", ("no 'rt' here",)), rt=False)
    tries.call("--build", wanted=(1, "", ("not built", "not proved")), BREAKS="1")
    tries.call("--build", wanted=(0, "", ("2 crates", "proves low", "built in")))
    tries.call(*asked, wanted=(0, echoed, ()), rt=False)
    tries.call(*asked, wanted=(0, echoed, ()), script="bin/linked")
    tries.call(*asked, wanted=(3, echoed, ()), STATUS="3")
    tries.call("--build", "run", "--", wanted=(0, "<run><-->job", ("built in",)))
    for name in ("crates/low/must-fail/one.edit", "crates/other/src/lib.rt", "docs/GATE.md"):
        tries.touch(name)
        tries.call(*asked, wanted=(0, echoed, ()))
    for name in ("crates/low/src/lib.rt", "crates/low/specs/Lib.antt", "crates/finch/src/main.rt", "crates.txt"):
        tries.touch(name)
        tries.call("run", wanted=(0, "<run>job", ("stale", f"{name} is newer", "quick build without proofs")))
        tries.touch(name, -1000)
    tries.call("run", wanted=(0, "<run>job", ()))


def main():
    with tempfile.TemporaryDirectory(prefix="finch-tries-") as made:
        tries = Tries(pathlib.Path(made))
        furnish(tries.top)
        try_all(tries)
    print(f"the script finch: {'failed' if tries.failed else 'as it should be'}")
    return 1 if tries.failed else 0


if __name__ == "__main__":
    raise SystemExit(main())
