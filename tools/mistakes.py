"""Mistakes as they are made, and what is said of each: the table of examples/mistakes.txt.

A line of the table is one of these; empty lines and those that begin with `#` say nothing.

    file NAME TEXT      a file that the mistakes below it find, with escapes as Python has them, in single bytes
    make COMMAND        a command for bash that makes files for them
    $ COMMAND           a mistake: a command for bash
    STATUS LINE         its exit status, and the first line that it says; no LINE where all that is said stands behind two blanks
      WORDS             words that stand in the lines behind the first, which begin with two blanks each
"""
import codecs
import os
import subprocess
from dataclasses import dataclass, field
from pathlib import Path

TABLE = Path(__file__).resolve().parents[1] / "examples/mistakes.txt"


@dataclass
class Mistake:
    number: int
    command: str
    status: int = 0
    first: str = ""
    words: list = field(default_factory=list)
    needs: list = field(default_factory=list)


def table():
    """The mistakes, each with the lines of files that it needs beside those of the mistakes before it."""
    found, needs = [], []
    for number, line in enumerate(TABLE.read_text(encoding="utf-8").splitlines(), 1):
        word, _, rest = line.partition(" ")
        if not line or word == "#":
            continue
        if line.startswith("  "):
            found[-1].words.append(line[2:])
        elif word in ("file", "make"):
            needs.append((word, rest))
        elif word == "$":
            found.append(Mistake(number, rest, needs=needs))
            needs = []
        else:
            found[-1].status, found[-1].first = int(word), rest
    return found


def prepare(mistake, folder, names):
    """Makes the files that a mistake needs."""
    for kind, rest in mistake.needs:
        if kind == "file":
            name, _, text = rest.partition(" ")
            (folder / name).write_bytes(codecs.decode(text, "unicode_escape").encode("latin-1"))
        else:
            subprocess.run(["bash", "-c", rest], cwd=folder, env=names, check=True)


def why_wrong(mistake, status, errors):
    """Why what was said isn't what the table says, or None."""
    lines = errors.decode("utf-8", "surrogateescape").splitlines()
    first = lines.pop(0) if mistake.first and lines else ""
    behind = "\n".join(lines)
    if (status, first) != (mistake.status, mistake.first):
        return f"status {status}, first line {first!r}"
    wrong = [line for line in lines if not line.startswith("  ")] if mistake.first.startswith("rt_sim") else []
    missing = [words for words in mistake.words if words not in behind]
    return f"{behind!r} lacks {missing}, or has {wrong}" if wrong or missing else None


def try_all(program, folder):
    """Makes each mistake in a folder, and returns how many there are and what is wrong first."""
    (folder / "bin").mkdir()
    (folder / "bin" / "rt_sim").symlink_to(program)
    (folder / "work").mkdir()
    names = {**os.environ, "PATH": f"{folder}/bin:{os.environ['PATH']}", "LC_ALL": "C"}
    found = table()
    for mistake in found:
        prepare(mistake, folder / "work", names)
        ran = subprocess.run(["bash", "-c", mistake.command], cwd=folder / "work", env=names, stdin=subprocess.DEVNULL,
                             capture_output=True, timeout=60, check=False)
        why = why_wrong(mistake, ran.returncode, ran.stderr)
        if why:
            return len(found), f"{TABLE.name}:{mistake.number}: {mistake.command}: {why}"
    return len(found), None
