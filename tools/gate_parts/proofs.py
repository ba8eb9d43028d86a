"""Proofs of crates by `rt ci`, side by side, and what each costs."""
import os
import re
import shutil
import signal
import subprocess
import sys
import tempfile
import threading
import time
from collections import defaultdict
from pathlib import Path

TICKS = os.sysconf("SC_CLK_TCK")
DONE = re.compile(r"rt: (\w+)(: its tests)? (proved|NOT PROVED|is kept)\b")


def processes():
    """Returns the parent of each process, when it began, and its seconds with those of its children that have ended."""
    found = {}
    for path in Path("/proc").glob("[0-9]*/stat"):
        try:
            fields = path.read_text(errors="replace").rpartition(")")[2].split()
        except OSError:
            continue
        found[int(path.parent.name)] = int(fields[1]), fields[19], sum(int(it) for it in fields[11:15]) / TICKS
    return found


def started_by(pid):
    """Returns the processes that a process started, and those that they started."""
    found, below, todo = processes(), [], [pid]
    while todo:
        parent = todo.pop()
        todo += [it for it, (of, _, _) in found.items() if of == parent]
        below += [it for it, (of, _, _) in found.items() if of == parent]
    return below


def check_of(pid):
    """Returns the crate that a process checks, with a mark if it is for an edit or for tests, or None."""
    try:
        folder = os.readlink(f"/proc/{pid}/cwd")
        words = Path(f"/proc/{pid}/cmdline").read_text(errors="replace").split("\0")
    except OSError:
        return None
    if "--crate-name" not in words:
        return None
    mark = " (edits)" if "/rt-edit" in folder else " (tests)" if "--test" in words else ""
    return words[words.index("--crate-name") + 1] + mark


class Watch:
    """What each check below a command has spent, looked up four times a second in /proc: so it misses the last quarter of a second of each."""

    def __init__(self, command):
        self.command, self.seen, self.ended = command, {}, threading.Event()
        self.thread = threading.Thread(target=self.go_on, daemon=True)
        self.thread.start()

    def look(self):
        found, below = processes(), defaultdict(list)
        for pid, (parent, _, _) in found.items():
            below[parent].append(pid)

        def seconds(pid):
            return found[pid][2] + sum(seconds(it) for it in below[pid])

        todo = [*below[self.command]]
        while todo:
            pid = todo.pop()
            check = check_of(pid)
            if check:
                key = pid, found[pid][1], check
                self.seen[key] = max(seconds(pid), self.seen.get(key, 0))
            else:
                todo += below[pid]

    def go_on(self):
        while not self.ended.wait(0.25):
            self.look()

    def sums(self):
        """Returns the seconds of processor time that went into each check, by its crate."""
        sums = defaultdict(float)
        for (_, _, check), seconds in list(self.seen.items()):
            sums[check] += seconds
        return sums

    def end(self):
        self.ended.set()
        self.thread.join()
        return self.sums()


def rt_ci(top, left, anew=False, tell=print):
    """Runs `rt ci` in a copy with so many crates left to prove, over what earlier runs kept unless anew, and tells of each as it is done:
    its processor time, and how many are left. Returns its status, all that it said, and the seconds that each check took."""
    if "--anew" in Path(shutil.which("rt")).read_text(encoding="utf-8", errors="replace"):  # a kit that keeps by itself
        words = ["rt", "ci", *(["--anew"] if anew else [])]
    else:
        words = ["rt", "ci"] if anew else [sys.executable, "-B", f"{os.path.dirname(__file__)}/keeping.py"]
    said, kept = [], set()
    how = {"stdout": subprocess.PIPE, "stderr": subprocess.STDOUT, "text": True, "errors": "replace", "start_new_session": True}
    with subprocess.Popen(words, cwd=top, **how) as ran:
        watch = Watch(ran.pid)
        try:
            for line in ran.stdout:
                said.append(line)
                done = DONE.match(line)
                if done and done[3] == "is kept":
                    kept.add(done[1])
                elif done and not done[2]:
                    left -= 1
                    took = "kept from an earlier run" if done[1] in kept else f"{done[3]} in {watch.sums()[done[1]]:.0f} s"
                    tell(f"{done[1]}: {took}, {left} left", flush=True)
        except BaseException:
            os.killpg(ran.pid, signal.SIGTERM)
            raise
        finally:
            sums = watch.end()
    return ran.returncode, "".join(said), sums
