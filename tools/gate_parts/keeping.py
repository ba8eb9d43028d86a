"""`rt ci`, which takes the library of a crate from an earlier run on this machine where the crate and all below it are the same.

The kit's `rt ci` proves each crate anew. Its checks and its order are left as they are: only the step that makes a library looks first
whether it is kept. Run in a copy of the checkout, as `rt ci` is.
"""
import importlib.machinery
import importlib.util
import inspect
import os
import shutil
import sys
from pathlib import Path

sys.path.insert(0, str(Path(__file__).resolve().parent.parent))

from gate_parts import repository  # noqa: E402

# so many libraries of a crate are kept, those that were used last
MOST = 3


def link_or_copy(one, other):
    """Gives a file a second name: nobody changes a library that is made."""
    try:
        os.link(one, other)
    except OSError:
        shutil.copy2(one, other)


def put(tree, to):
    """Puts a tree in a place, whole or not at all; what another run has put there stays. Returns whether it stands there."""
    made = to.with_name(f".{to.name}-{os.getpid()}")
    try:
        shutil.copytree(tree, made, symlinks=True, copy_function=link_or_copy)
        made.rename(to)
    except OSError:  # no room, say
        shutil.rmtree(made, ignore_errors=True)
    return to.is_dir()


def drop_old(store, name):
    """Drops the libraries of a crate that were used longest ago."""
    found = sorted(store.glob(f"{name}-*"), key=lambda it: it.stat().st_mtime)
    for it in found[:-MOST]:
        shutil.rmtree(it, ignore_errors=True)


def loaded():
    """Returns the kit's `rt` as a module."""
    place = os.path.realpath(shutil.which("rt"))
    sys.path.insert(1, os.path.dirname(place))
    loader = importlib.machinery.SourceFileLoader("rt_of_kit", place)
    made = importlib.util.module_from_spec(importlib.util.spec_from_loader("rt_of_kit", loader))
    sys.modules["rt_of_kit"] = made
    loader.exec_module(made)
    return made


def main():
    rt, store, keys = loaded(), repository.kept_folder("libraries"), repository.keys(os.getcwd())
    prove = getattr(rt.Crate, "ci", None)
    if store is None or not prove or [*inspect.signature(prove).parameters] != ["self", "flags", "tests"]:  # another kit
        return rt.main(["ci"])

    def ci(crate, flags, tests):
        if tests or crate.is_program or crate.is_static:
            return prove(crate, flags, tests)
        kept, made = store / f"{crate.name}-{keys[crate.name]}", Path(crate.folder, "out", "rlib")
        shutil.rmtree(made, ignore_errors=True)
        if kept.is_dir() and put(kept, made):
            os.utime(kept)
            # (in one piece: others print too)
            print(f"rt: {crate.name} is kept\n", end="", flush=True)
            return 0
        status = prove(crate, flags, tests)
        if not status and put(made, kept):
            drop_old(store, crate.name)
        return status

    rt.Crate.ci = ci
    return rt.main(["ci"])


if __name__ == "__main__":
    sys.exit(main())
