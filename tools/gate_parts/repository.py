"""The crates of the checkout, what each stands on, and copies of them."""
import hashlib
import os
import re
import shutil
import subprocess
from pathlib import Path

TOP = Path(__file__).resolve().parent.parent.parent
PROGRAM = "rt_sim"
# what a check reads of a crate
PARTS = ("src", "specs", "proofs")
# where the program says which logic proved it
VERSION_FILE = "crates/rt_command_line/src/version.rt"
# what the commands of README put on the path
ON_PATH = TOP / "bin"


def stands_on(top=TOP):
    """Returns the words of each crate's line in crates.txt: what it stands on, here and in the kit."""
    found = {}
    for line in Path(top, "crates.txt").read_text(encoding="utf-8").splitlines():
        name, _, below = line.partition("#")[0].partition(":")
        if name.strip():
            found[name.split()[0]] = below.split()
    return found


def own_of(known, name):
    """Returns the repository's crates that a crate stands on directly."""
    return [it for it in known[name] if it in known]


def with_below(known, names):
    """Returns these crates and those below them, each behind all that it stands on."""
    found = []

    def visit(name):
        if name not in found:
            for it in own_of(known, name):
                visit(it)
            if name not in found:
                found.append(name)

    for it in names:
        visit(it)
    return found


def kit():
    """Returns the folder of the kit."""
    return Path(os.path.realpath(shutil.which("rt"))).parent.parent


def kept_folder(what):
    """Returns where runs on this machine keep such results, or None where nothing can be written there."""
    try:
        made = Path(os.environ.get("XDG_CACHE_HOME") or Path.home() / ".cache", "naphluy", what)
        made.mkdir(parents=True, exist_ok=True)
    except (OSError, RuntimeError):
        return None
    return made if os.access(made, os.W_OK) else None


def keys(top):
    """Returns, of each crate of a folder, the sum of the prover and of all that it reads of the crate and of those below it."""
    known, found = stands_on(top), {}
    prover = (kit() / "KIT-ID").read_bytes(), os.stat(kit() / "bin/rattle").st_size, Path(top, "HANDLES").read_bytes()
    for crate in with_below(known, known):
        sum = hashlib.sha256(repr((prover, crate, known[crate])).encode())
        for part in PARTS:
            for path in sorted(Path(top, "crates", crate, part).rglob("*")):
                if path.is_file():
                    sum.update(repr((str(path.relative_to(top)), path.read_bytes())).encode())
        for it in own_of(known, crate):
            sum.update(found[it].encode())
        found[crate] = sum.hexdigest()
    return found


def are_tests(name):
    return name.endswith("_tests")


def has_tests(name, top=TOP):
    """Returns whether a file of the crate's sources holds a test."""
    return any("#[test]" in it.read_text(encoding="utf-8") for it in Path(top, "crates", name, "src").rglob("*.rt"))


def lines_of(name, top=TOP):
    """Returns the lines of the crate's sources: what its proof costs goes by them."""
    return sum(it.read_bytes().count(b"\n") for it in Path(top, "crates", name, "src").rglob("*.rt"))


def git(*words):
    """Returns what git says, or nothing where it can't tell: where this is no checkout, say."""
    try:
        return subprocess.run(["git", *words], cwd=TOP, check=True, stdout=subprocess.PIPE, text=True).stdout
    except (OSError, subprocess.CalledProcessError):
        return ""


def files():
    """Returns the files that git tracks, or would; without git all but those that are made."""
    tracked = git("ls-files", "-coz", "--exclude-standard").rstrip("\0")
    if tracked:
        return tracked.split("\0")
    found = []
    for at, folders, names in os.walk(TOP):
        folders[:] = [it for it in folders if it not in (".git", "out", "bin", "__pycache__")]
        found += [os.path.relpath(f"{at}/{name}", TOP) for name in names]
    return found


def copied(to):
    """Copies each file of the checkout as it stands now."""
    for path in files():
        if os.path.lexists(TOP / path):
            os.makedirs(os.path.dirname(f"{to}/{path}"), exist_ok=True)
            shutil.copy2(TOP / path, f"{to}/{path}", follow_symlinks=False)


def leave_only(names, top):
    """Takes all crates out of a copy but these."""
    known = stands_on(top)
    for name in known.keys() - set(names):
        shutil.rmtree(f"{top}/crates/{name}")
    Path(top, "crates.txt").write_text("".join(f"{it}: {' '.join(known[it])}\n" for it in known if it in names), encoding="utf-8")


def put(program, name=PROGRAM):
    """Puts a program where README's path finds it."""
    ON_PATH.mkdir(exist_ok=True)
    made = ON_PATH / f".{name}.new"
    shutil.copy2(program, made)
    made.chmod(0o755)
    made.replace(ON_PATH / name)
    return ON_PATH / name
