#!/usr/bin/env python3
"""Tries what the documents show, through the built program.

    tools/try_documents.py [PROGRAM ..]      (default: ./finch)

Tried are the jobs of docs/RULES.md with the answer below each; the commands of each block `console` in README.md and
docs/, with what the block says they print; the rows of docs/MISTAKES.md, with the page and heading that each leads to;
every link from one document to another; and the pictures that README.md shows, against what tools/look makes. A command
is given to bash in a folder of its own, where `finch` is the program.
"""
import os
import pathlib
import re
import shlex
import subprocess
import sys
import tempfile

from picture import dots_of

ROOT = pathlib.Path(__file__).resolve().parent.parent
DOCUMENTS = [ROOT / "README.md", *sorted((ROOT / "docs").glob("*.md"))]
PICTURES = {"docs/picture.png": "./finch run < examples/picture.job | tools/look --png"}
SECONDS = 60


def rule_jobs(page):
    """The jobs of the page on rules: mode, further words, job, and the line that is due."""
    found = re.findall(r"```(job|plain|run)( --budget \d+)?\n(.*?)```\n\n`(refused [A-Z0-9]+ line \d+)`", page, re.S)
    return [("check" if mode == "job" else mode, words.split(), job, line) for mode, words, job, line in found]


def try_rules(program, told):
    page = (ROOT / "docs" / "RULES.md").read_text()
    jobs, blocks = rule_jobs(page), len(re.findall(r"```(?:job|plain|run)(?: --budget \d+)?\n", page))
    if blocks != len(jobs):
        told.append(f"RULES.md has {blocks} jobs and {len(jobs)} answers")
    for mode, words, job, line in jobs:
        try:
            done = subprocess.run(program + [mode] + words, input=job.encode(), capture_output=True, timeout=SECONDS)
        except subprocess.TimeoutExpired:
            told.append(f"RULES.md: expected {line}, and there was no answer in {SECONDS} s")
            continue
        if (done.returncode, done.stdout, done.stderr) != (1, b"", line.encode() + b"\n"):
            told.append(f"RULES.md: expected {line}, got {done}")
    return f"{len(jobs)} jobs"


def console(page):
    """The commands of a page's blocks `console`, each with the lines that stand below it."""
    for block in re.findall(r"^```console\n(.*?)^```", page, re.S | re.M):
        for part in re.split(r"^\$ ", block, flags=re.M)[1:]:
            command, _, printed = part.partition("\n")
            yield command, printed


def run(command, folder):
    """What a command prints, on both of its outputs, as bytes."""
    try:
        return subprocess.run(["bash", "-c", command], cwd=folder, stdin=subprocess.DEVNULL, stdout=subprocess.PIPE,
                              stderr=subprocess.STDOUT, timeout=SECONDS,
                              env={**os.environ, "PYTHONDONTWRITEBYTECODE": "1"}).stdout
    except subprocess.TimeoutExpired:
        return f"no answer in {SECONDS} s".encode()


def try_console(folder, told):
    count = 0
    for document in DOCUMENTS:
        for command, printed in console(document.read_text()):
            count += 1
            got = run(command, folder).decode(errors="replace")
            if got != printed:
                told.append(f"{document.name}: {command}\n  wanted {printed!r}\n  got    {got!r}")
    return f"{count} commands"


def mistakes(page):
    """The rows of the table: the command, the line that it prints, and the link to where it is mended."""
    for row in re.findall(r"^\| [^|]+ \| (`.*`) \| (`.*`) \| .*\]\(([^)]*)\).* \|$", page, re.M):
        yield row[0].strip("`").replace("\\|", "|"), row[1].strip("`").replace("\\|", "|"), row[2]


def try_mistakes(folder, told):
    page = (ROOT / "docs" / "MISTAKES.md").read_text()
    rows = list(mistakes(page))
    lines = len(re.findall(r"^\| ", page, re.M)) - 1
    if len(rows) != lines or len(rows) < 10:
        told.append(f"MISTAKES.md: {len(rows)} rows were read of {lines}")
    for command, printed, _ in rows:
        got = run(command, folder).decode(errors="replace").strip()
        if got != printed:
            told.append(f"MISTAKES.md: {command}\n  wanted {printed!r}\n  got    {got!r}")
    return f"{len(rows)} mistakes"


def anchors(document):
    """The names by which a page's headings are linked to."""
    for line in re.findall(r"^#+ (.*)$", document.read_text(), re.M):
        yield re.sub(r"[^a-z0-9 _-]", "", line.lower()).replace(" ", "-")


def try_links(told):
    count = 0
    for document in DOCUMENTS:
        for target in re.findall(r"\]\((?!https?:)([^)\s]*)\)", document.read_text()):
            count += 1
            path, _, anchor = target.partition("#")
            file = (document.parent / path).resolve() if path else document
            if not file.exists() or (anchor and anchor not in anchors(file)):
                told.append(f"{document.name}: the link {target} leads nowhere")
    return f"{count} links"


def try_pictures(folder, told):
    for name, command in PICTURES.items():
        made = run(command, folder)
        if not made.startswith(b"\x89PNG") or dots_of((ROOT / name).read_bytes()) != dots_of(made):
            told.append(f"{name} isn't what this makes: {command}")
    return f"{len(PICTURES)} picture"


def furnish(folder, program):
    """The folder where commands run: the program as `finch`, and the folders that they name."""
    for name in ("examples", "tools", "docs"):
        os.symlink(ROOT / name, folder / name)
    (folder / "finch").write_text(f'#!/usr/bin/env bash\nexec {shlex.join(program)} "$@"\n')
    (folder / "finch").chmod(0o755)


def main():
    program = [str(pathlib.Path(word).resolve()) if pathlib.Path(word).exists() else word for word in sys.argv[1:]]
    program, told = program or [str(ROOT / "finch")], []
    with tempfile.TemporaryDirectory(prefix="finch-documents-") as made:
        folder = pathlib.Path(made)
        furnish(folder, program)
        tried = [try_rules(program, told), try_console(folder, told), try_mistakes(folder, told),
                 try_pictures(folder, told), try_links(told)]
    for line in told:
        print(line)
    print(f"the documents' {', '.join(tried)}: {'failed' if told else 'as they say'}")
    return 1 if told else 0


sys.exit(main())
