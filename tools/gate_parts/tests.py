"""All tests, without proofs: the crates of tests become modules of a few crates, each built once, with its checks, and optimised."""
import re
import subprocess
from pathlib import Path

from gate_parts import repository

# What the crates of tests are built in, by what they stand on: the first that fits takes a crate.
GROUPS = {
    "rt_host_group": ("rt_arguments",),
    "rt_programs_group": ("rt_programs",),
    "rt_machine_group": ("rt_core", "rt_report", "rt_effects"),
    "rt_base_group": (),
}
# for one test, in seconds
LIMIT = 300


def groups(known):
    """Returns the crates of tests of each group."""
    found = {}
    for name in filter(repository.are_tests, known):
        below = repository.with_below(known, [name])
        group = next(it for it, stands_on in GROUPS.items() if not stands_on or any(one in below for one in stands_on))
        found.setdefault(group, []).append(name)
    return found


def merge(top, crate, names):
    """Makes a crate of these crates of tests, each of which becomes a module."""
    known, src = repository.stands_on(top), Path(top, "crates", crate, "src")
    for name in names:
        own = Path(top, "crates", name, "src")
        for path in own.rglob("*.rt"):
            at = path.relative_to(own)
            to = src / (f"{name}.rt" if at == Path("lib.rt") else Path(name) / at)
            to.parent.mkdir(parents=True, exist_ok=True)
            text = re.sub(r"\bcrate::", f"crate::{name}::", path.read_text(encoding="utf-8")).replace(f"Rattle.{name}.", f"Rattle.{crate}.")
            to.write_text(re.sub(r"^#!\[tactic\(auto\)\]\n|^#\[cfg\(test\)\]\n", "", text, flags=re.M), encoding="utf-8")
    modules = "".join(f"#[cfg(test)]\nmod {it};\n" for it in names)
    (src / "lib.rt").write_text(f"//! The tests of several crates.\n#![tactic(auto)]\n\n{modules}", encoding="utf-8")
    used = dict.fromkeys(it for name in names for it in known[name])
    return f"{crate}: {' '.join(used)}\n"


def make_groups(top):
    """Makes the crates of all groups in a copy of the checkout, and returns the crates of tests of each, and of crates that hold their own."""
    known = repository.stands_on(top)
    made = groups(known)
    with open(f"{top}/crates.txt", "a", encoding="utf-8") as listed:
        listed.write("".join([merge(top, crate, names) for crate, names in made.items()]))
    made |= {name: [name] for name in known if not repository.are_tests(name) and repository.has_tests(name, top)}
    return made


def run(program, room):
    """Runs the tests of a program, each in a process of its own. Returns how many passed, and what was said of each other one."""
    Path(room).mkdir(parents=True)
    words = [f"{repository.kit()}/bin/rattle-test", "--seconds", str(LIMIT), program]
    ran = subprocess.run(words, cwd=room, stdin=subprocess.DEVNULL, stdout=subprocess.PIPE, stderr=subprocess.STDOUT, text=True, errors="replace")
    passed = len(re.findall(r"^test \S+ \.\.\. ok$", ran.stdout, re.M))
    failed = re.findall(r"^test (?!.* ok$)(?!result)\S+ .*$", ran.stdout, re.M)
    if ran.returncode and not failed:
        failed = [f"{Path(program).name}: {ran.stdout[-600:]}"]
    return passed, failed
