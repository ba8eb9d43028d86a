"""Tests as data: the cases of tests/*.t, which CONTRIBUTING describes (A test as data)."""
import codecs
import difflib
import os
import re
import shutil
import subprocess
import tempfile
from concurrent.futures import ThreadPoolExecutor
from dataclasses import dataclass, field
from pathlib import Path

TESTS = Path(__file__).resolve().parents[1] / "tests"
# for one command, in seconds
LIMIT = 120
# of a difference, how many lines are shown
SHOWN = 30


class Bad(Exception):
    """A line of a test file that has no meaning."""


@dataclass
class Command:
    """A command for bash: what is typed to it, and what is to come of it."""

    number: int
    text: str
    typed: bytes = b""
    printed: list = field(default_factory=list)
    said: list = field(default_factory=list)
    status: int = 0

    def is_gdb(self):
        return self.text.startswith("rt_sim gdb ")

    def wanted(self):
        """What is to come of it, as lines of a test file."""
        status = [f"? {self.status}"] if self.status else []
        return [*(f"  {it}" for it in self.printed), *(f"! {it}" for it in self.said), *status]


@dataclass
class Case:
    """A case, or what all cases of a file share."""

    number: int
    name: str
    files: list = field(default_factory=list)
    commands: list = field(default_factory=list)


def unescaped(text):
    """The bytes of a text with Python's escapes."""
    return codecs.decode(text, "unicode_escape").encode("latin-1")


def packet(payload):
    return b"$%s#%02x" % (payload, sum(payload) % 256)


def packets_by_line(printed):
    """What a session of gdb prints, with an end of the line behind each packet and each `-`. A packet's sum is left out where it is right."""
    lines = re.sub(rb"(\$([^#]*)#..)|-", lambda it: (b"$" + it[2] if it[1] == packet(it[2]) else it[1]) + b"\n" if it[1] else b"-\n", printed)
    return lines if not lines or lines.endswith(b"\n") else lines + b"\n"


def type_to(command, line, is_raw):
    """Has a line typed to a command, whose rest is to be printed for it."""
    typed, _, printed = re.fullmatch(r"(.*?)(   +(.*))?", line).groups()
    if printed:
        command.printed.append(printed.lstrip(" "))
    if is_raw:
        command.typed += unescaped(typed)
    else:
        typed = typed.encode("utf-8", "surrogateescape")
        command.typed += packet(typed) if command.is_gdb() else typed + b"\n"


def cases_of(path):
    """The cases of a file. The first has no name: all others share what it makes."""
    found, block, blanks = [Case(1, "")], None, 0
    for number, line in enumerate(path.read_bytes().decode("utf-8", "surrogateescape").split("\n"), 1):
        word, _, rest = line.partition(" ")
        command = found[-1].commands[-1] if found[-1].commands else None
        if line.startswith("  ") and block is not None:
            block += [""] * blanks + [line[2:]]
        elif word == "case":
            found.append(Case(number, rest))
            block = None
        elif word == "file":
            name, _, text = rest.partition(" ")
            block = [] if not text else None
            found[-1].files.append((name, unescaped(text) if text else block))
        elif word == "$":
            found[-1].commands.append(Command(number, rest))
            block = found[-1].commands[-1].printed
        elif word == "+" and command:
            command.text += f"\n{rest}"
        elif word in (">", ">>") and command:
            type_to(command, rest, word == ">>")
        elif word == "!" and command:
            command.said.append(rest)
        elif word == "?" and command:
            command.status = int(rest)
        elif line and word != "#":
            raise Bad(f"{path.name}:{number}: {line}")
        blanks = blanks + 1 if not line else 0
    return found


def lines_of(text):
    """The lines of a text. Where it lacks the end of its last line, this says so."""
    lines = text.decode("utf-8", "surrogateescape").split("\n")
    return lines[:-1] if not lines[-1] else [*lines[:-1], f"{lines[-1]} (no end of line)"]


def run_command(command, folder, names):
    """Runs a command, and says how what comes of it differs from what is to come."""
    ran = subprocess.run(["bash", "-o", "pipefail", "-c", command.text], cwd=folder, env=names, input=command.typed, capture_output=True,
                         timeout=LIMIT, check=False)
    printed = packets_by_line(ran.stdout) if command.is_gdb() else ran.stdout
    found = Command(command.number, command.text, printed=lines_of(printed), said=lines_of(ran.stderr), status=ran.returncode)
    if found.wanted() == command.wanted():
        return None
    lines = list(difflib.unified_diff(command.wanted(), found.wanted(), "wanted", "found", lineterm="", n=1))
    return "\n".join([f"{command.number}: $ {command.text}", *(f"    {it}" for it in lines[:SHOWN])])


def make_files(case, folder, names):
    """Makes the files of a case: a source is assembled, a set packed. Says what isn't made."""
    for name, text in case.files:
        (folder / name).parent.mkdir(exist_ok=True)
        whole = text if isinstance(text, bytes) else "".join(f"{it}\n" for it in text).encode("utf-8", "surrogateescape")
        (folder / name).write_bytes(whole)
    for ending, word, made in ((".s", "asm", ".rti"), (".set", "pack", ".rts")):
        for name, _ in case.files:
            if name.endswith(ending):
                words = ["rt_sim", word, name, name.removesuffix(ending) + made]
                ran = subprocess.run(words, cwd=folder, env=names, capture_output=True, text=True, errors="replace", check=False)
                if ran.returncode:
                    return f"{case.number}: {name}: {ran.stderr}"
    return None


def run_case(case, folder, names):
    """Runs a case in a folder. Returns the first difference, or None."""
    why = make_files(case, folder, names)
    for command in case.commands:
        why = why or run_command(command, folder, names)
    return why


def try_all(program, chosen=()):
    """Runs the cases of all test files, or of the chosen ones. Returns how many there are, and what differs."""
    paths = [TESTS / f"{it}.t" for it in chosen] or sorted(TESTS.glob("*.t"))
    with tempfile.TemporaryDirectory() as room, ThreadPoolExecutor(len(os.sched_getaffinity(0))) as pool:
        (Path(room) / "bin").mkdir()
        (Path(room) / "bin" / "rt_sim").symlink_to(program)
        (Path(room) / "bin" / "callers").symlink_to(TESTS.parent / "examples" / "c" / "callers")
        names = {**os.environ, "PATH": f"{room}/bin:{os.environ['PATH']}", "LC_ALL": "C", "EXAMPLES": str(TESTS.parent / "examples")}

        def try_case(path, case):
            folder = Path(room, path.stem, str(case.number))
            shutil.copytree(Path(room, path.stem, "shared"), folder)
            why = run_case(case, folder, names)
            shutil.rmtree(folder)
            return f"tests/{path.name}:{why}\n    in the case of line {case.number}: {case.name}" if why else None

        count, tried, wrong = 0, [], []
        for path in paths:
            shared, *cases = cases_of(path)
            Path(room, path.stem, "shared").mkdir(parents=True)
            why = run_case(shared, Path(room, path.stem, "shared"), names)
            if why:
                wrong.append(f"tests/{path.name}:{why}")
            else:
                tried += [pool.submit(try_case, path, case) for case in cases]
            count += len(cases)
        return count, wrong + [why for why in (it.result() for it in tried) if why]
