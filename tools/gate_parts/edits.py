"""Must-fail edits, many to a check.

An edit of a function or of a constant stands in its place, one of each function: each function has a line of its own in what a check says, and
rests on the contracts of those that it calls, not on their bodies. Further edits of a function become copies beside it, with its proof under
the copy's name, which no one calls. A check looks at these functions, and at those that name the constant, alone. What they call keeps its
contract, and has no body there but a hole: so that isn't proved once more. An unchanged copy of each function of which a copy has a proof, and
of one at least, is a control: it must be proved, but for what it calls. An edit of a definition names in a line `by:` the function whose proof
must fail: a check of its own looks at that one alone. What these leave open is judged by a check of the crate, as `rt must-fail` does it.
"""
import contextlib
import hashlib
import json
import os
import re
import shutil
import subprocess
import tempfile
from collections import defaultdict
from dataclasses import dataclass, field
from pathlib import Path

from gate_parts import repository, sources

# of how edits are judged: what is kept by another counts for nothing
VERSION = 5
# Where a check of more edits than these says nothing of them, they are judged in halves.
FEW = 3
LINE = re.compile(r"^fn (\S+): (.*)$", re.M)
AT = re.compile(r"^(?:note: )?(?:\./)?((?:src|specs|proofs)/\S+?):(\d+):\d+:", re.M)
# a proof file that names what an edit took away, and what cites that proof
NAMES = re.compile(r"(note: )?(\./)?proofs/.*(has no field|is not in scope|has no `|was not admitted)")
UNKNOWN = re.compile(r"has no function `([^`]+)`")
OF_CONSTANTS = re.compile(r"^ *(?:pub(?:\([a-z ]*\))? )?(?:final )?const (?:unsafe )?fn\b")
CONSTANT = re.compile(r"^ *(?:pub(?:\([a-z ]*\))? )?(?:const|static) (\w+)")


class Bad(Exception):
    """Why an edit can't be applied, compiled or read."""


def texts_of(edit, crate):
    """Returns the texts of the files that an edit changes, by their path in the crate: its pairs apply one after the other."""
    texts, path, old, pairs = {}, None, None, 0
    for line in Path(edit).read_text(encoding="utf-8").split("\n"):
        word, _, rest = line.partition(":")
        rest = rest[1:] if rest.startswith(" ") else rest
        if word == "file":
            path = rest.strip()
        elif word == "old":
            old = rest
        elif word == "new":
            if path is None or not old:
                raise Bad("a 'new:' stands before any 'file:' or 'old:'")
            if path not in texts:
                texts[path] = Path(crate, path).read_text(encoding="utf-8")
            found = texts[path].count(old)
            if found != 1:
                raise Bad(f"its text stands in {path} {found} times: {old}")
            texts[path] = texts[path].replace(old, rest)
            pairs += 1
    if not pairs:
        raise Bad("it has no pair of lines 'old:' and 'new:'")
    return texts


def edits_of(crate):
    """Returns a crate's edits, in order."""
    return sorted(Path(crate, "must-fail").glob("*.edit"))


@dataclass(eq=False)
class Change:
    """A function that an edit changes: its file, the original, and the new text of its lines."""

    path: str
    function: sources.Function
    text: str = ""


def named_by(edit):
    """Returns the function whose proof an edit says that it breaks, by its path below the crate, or nothing."""
    lines = Path(edit).read_text(encoding="utf-8").split("\n")
    return next((it.removeprefix("by:").strip() for it in lines if it.startswith("by:")), "")


@dataclass(eq=False)
class Edit:
    name: str
    texts: dict
    by: str = ""
    changes: list = field(default_factory=list)
    # the constants that it changes, and whether it changes anything else
    constants: set = field(default_factory=set)
    is_elsewhere: bool = False
    verdict: str = ""

    @property
    def is_refused(self):
        return self.verdict.startswith("refused")

    @property
    def says_little(self):
        return self.verdict.startswith("refused,")


def changes_of(edit, crate):
    """Notes which functions and constants an edit changes, and whether it changes anything else."""
    turned = []
    for path, text in edit.texts.items():
        if not path.endswith(".rt"):
            edit.is_elsewhere = True
            continue
        was = Path(crate, path).read_text(encoding="utf-8")
        old, new = was.split("\n"), text.split("\n")
        before, after = sources.functions(was), sources.functions(text)
        if [(it.owner, it.name, it.head, it.end) for it in before] != [(it.owner, it.name, it.head, it.end) for it in after]:
            edit.is_elsewhere = True
            continue
        for at in (it for it in range(len(old)) if old[it] != new[it]):
            if any(it.head <= at <= it.end for it in before):
                continue
            constant = constant_at(old, at)
            edit.constants |= {constant} - {None}
            edit.is_elsewhere |= not constant
        bodies = {it: ("\n".join(old[it.head : it.end + 1]), "\n".join(new[it.head : it.end + 1])) for it in before}
        edit.changes += [Change(path, it, body) for it, (was, body) in bodies.items() if was != body]
        turned += [Change(path, it, body) for it, (was, body) in bodies.items() if without_brackets(was) != without_brackets(body)]
    edit.changes = turned or edit.changes


def without_brackets(code):
    """Returns code without brackets and blanks: those that an edit puts round a statement, so that another stands alone, turn nothing."""
    return re.sub(r"[\s{}()]", "", code)


def constant_at(lines, at):
    """Returns the name of the constant in whose item a line stands, or None."""
    while at >= 0:
        found = CONSTANT.match(lines[at])
        if found or at and lines[at - 1].rstrip().endswith((";", "}")):
            return found and found[1]
        at -= 1
    return None


def users_of(crate, names):
    """Returns the functions of a crate that name one of these."""
    wanted, found = re.compile(rf"\b(?:{'|'.join(sorted(names))})\b"), []
    for path in sorted(crate.joinpath("src").rglob("*.rt")):
        text = path.read_text(encoding="utf-8")
        lines = text.split("\n")
        found += [Change(str(path.relative_to(crate)), it) for it in sources.functions(text) if wanted.search("\n".join(lines[it.head : it.end + 1]))]
    return found


class Room:
    """A copy of a crate in which checks are tried, over what an earlier one kept."""

    def __init__(self, name, top, room):
        self.name, self.top, self.room, self.known = name, top, room, repository.stands_on(top)
        self.crate, self.kept, self.seconds, self.checks = Path(top, "crates", name), f"{room}/kept", 0, 0
        self.code = Code(self.crate)
        # the functions that kept their bodies once a check couldn't do without, and those that were proved as they are
        self.whole, self.proved = set(), set()
        os.makedirs(self.kept, exist_ok=True)

    def words(self):
        """Returns the words of a check over the libraries that stand in the copy's out/."""
        kit = repository.kit()
        below = repository.with_below(self.known, [self.name])[:-1]
        at = lambda it: f"{self.top}/crates/{it}/out/rlib/{it}.rlib"
        root = "src/main.rt" if (self.crate / "src/main.rt").exists() else "src/lib.rt"
        words = [f"{kit}/bin/rattle", "check", "--crate-name", self.name, root]
        for it in ["std", *[it for it in self.known[self.name] if it not in self.known]]:
            words += ["--extern", f"{it}={kit}/rlibs/{it}.rlib"]
        words += ["-L", f"dependency={kit}/rlibs"]
        for it in repository.own_of(self.known, self.name):
            words += ["--extern", f"{it}={at(it)}"]
        for it in below:
            words += ["-L", f"dependency={os.path.dirname(at(it))}"]
        return [*words, "--antt-project", f"{kit}/rattle/logic/antt-project.json", "--logic-built", f"{kit}/logic_built", "--jobs", "1", "--links", f"{self.name}="]

    def check(self, texts, files=None, keep=False, only=(), emptied=()):
        """Checks the crate, or these functions and what they call, with these texts in place of its own, and these files beside them, without the
        proofs of functions that are emptied. Returns the status and what was said."""
        with tempfile.TemporaryDirectory(prefix="rt-edits-", dir=self.room) as room:
            for part in repository.PARTS:
                if (self.crate / part).is_dir():
                    shutil.copytree(self.crate / part, f"{room}/{part}")
            for path in emptied:
                shutil.rmtree(f"{room}/{path}", ignore_errors=True)
            for path, text in {**texts, **(files or {})}.items():
                os.makedirs(os.path.dirname(f"{room}/{path}"), exist_ok=True)
                Path(room, path).write_text(text, encoding="utf-8")
            kept = self.kept
            if not keep:
                kept = f"{room}/kept"
                shutil.copytree(self.kept, kept, copy_function=link_or_copy)
            with open(f"{room}/said", "w+", errors="replace", encoding="utf-8") as said:
                words = [*self.words(), *(word for name in only for word in ("--only", name)), "--incremental", kept]
                words += ["--allow-holes"] if emptied else []
                ran = subprocess.Popen(words, cwd=room, stdin=subprocess.DEVNULL, stdout=said, stderr=subprocess.STDOUT)
                try:
                    _, status, used = os.wait4(ran.pid, 0)
                except BaseException:
                    ran.kill()
                    raise
                ran.returncode = os.waitstatus_to_exitcode(status)
                said.seek(0)
                self.seconds, self.checks = self.seconds + used.ru_utime + used.ru_stime, self.checks + 1
                return ran.returncode, said.read()


def link_or_copy(one, other):
    """Gives what a check kept a second name: a check replaces such a file, and changes none."""
    return os.link(one, other) if str(one).endswith(".oantt") else shutil.copy2(one, other)


class Code:
    """The functions of a crate as a check names them."""

    def __init__(self, crate):
        self.crate, self.homes, self.listed, self.folders_cited = crate, {}, defaultdict(list), None
        library = crate / f"out/rlib/{crate.name}.rlib/toolchain/mir.json"
        for path, _ in json.loads(library.read_text(encoding="utf-8")) if library.exists() else []:
            *own, name = path.split("::")[1:]
            self.listed[name].append(own)

    def lines_of(self, path):
        return Path(self.crate, path).read_text(encoding="utf-8").split("\n")

    def home_of(self, type):
        """Returns the file that declares a type, if there is one."""
        if type not in self.homes:
            declared = re.compile(rf"^(?:pub(?:\([a-z ]*\))? )?(?:struct|enum) {type}\b", re.M)
            found = [it for it in (self.crate / "src").rglob("*.rt") if type and declared.search(it.read_text(encoding="utf-8"))]
            self.homes[type] = str(found[0].relative_to(self.crate)) if found else None
        return self.homes[type]

    def own_of(self, change):
        """Returns the path of what a function is of: its module, or its type, and behind the type the trait with what that is given."""
        function, type = change.function, change.function.of_type
        modules = [sources.module_of(it) for it in (self.home_of(type), change.path) if it]
        own, listed = [*modules[0], *([type + function.of_trait] if type else [])], self.listed[function.name]
        if own in listed or not function.of_trait:
            return own
        found = [it for it in listed if it[:-1] in modules and it[-1].startswith(type) and function.of_trait in it[-1][len(type) :]]
        spelled = [it for it in found if bare(it[-1]) == bare(function.of_trait_whole)]
        return (found if len(found) == 1 else [*spelled, own])[0]

    def places(self, change):
        """Returns where the proofs of a function and of its closures stand, below proofs/, without its name."""
        own = self.own_of(change)
        return ["/".join(own), "/".join([*own, "fn"])]

    def path_of(self, change, name=""):
        """Returns a function's path below the crate."""
        return "::".join([*self.own_of(change), name or change.function.name])

    def has_proof(self, change):
        return any((self.crate / "proofs" / it / change.function.name).is_dir() for it in self.places(change))

    def functions(self):
        """Returns all functions of the crate."""
        found = []
        for path in sorted((self.crate / "src").rglob("*.rt")):
            found += [Change(str(path.relative_to(self.crate)), it) for it in sources.functions(path.read_text(encoding="utf-8"))]
        return found

    def cited(self):
        """Returns the folders of functions' proofs that a proof of another function, or a lemma, cites."""
        if self.folders_cited is None:
            self.folders_cited = set()
            wanted = re.compile(rf"\bRattle\.{self.crate.name}\.proofs\.([\w.]+?)\.(?:Answers|Invariants|Proof|Goals|Given)\b")
            for file in (self.crate / "proofs").rglob("*.antt"):
                own = file.parent.relative_to(self.crate / "proofs").as_posix()
                found = {it.replace(".", "/") for it in wanted.findall(file.read_text(encoding="utf-8"))}
                self.folders_cited |= {it for it in found if it != own}
        return self.folders_cited

    def can_be_emptied(self, change):
        """Returns whether a function may have a hole in place of its body, so that what calls it has its contract alone."""
        function = change.function
        if OF_CONSTANTS.match(self.lines_of(change.path)[function.head]) or re.match(r"(?:pub(?:\([a-z ]*\))? )?(?:unsafe )?trait\b", function.owner):
            return False
        is_listed = self.listed[function.name].count(self.own_of(change)) == 1
        folder = "/".join(filter(None, [self.places(change)[0], function.name]))
        return is_listed and not self.is_in_cycle(change) and folder not in self.cited()

    def is_in_cycle(self, change):
        """Returns whether a function calls itself, by others or not: then its proof stands in a folder of its cycle's."""
        function = change.function
        marked = any("#[cycle" in it for it in self.lines_of(change.path)[function.begin : function.head])
        return marked or (self.crate / "proofs" / self.places(change)[0] / f"+{function.name}").is_dir()


def bare(text):
    """Returns the letters and digits of a text, by which a path spells a type."""
    return re.sub(r"[\W_]", "", text).lower()


class Sheet:
    """The text of a crate in which some edits stand in their places, and of others a copy of each function that they change beside the
    original, with the files of its proof."""

    def __init__(self, code, in_place):
        self.code, self.crate, self.given, self.files, self.added = code, code.crate, with_changes(code.crate, in_place), {}, defaultdict(list)
        self.count = 0

    def add(self, change, body, kind):
        """Adds a copy with this body, and returns its name."""
        function = change.function
        name, self.count = f"{function.name}_{kind}_{self.count}", self.count + 1
        for place in self.code.places(change):
            folder = self.crate / "proofs" / place / function.name
            for file in folder.rglob("*.antt"):
                text = re.sub(rf"\.{function.name}\.(?=[A-Z{{])", f".{name}.", file.read_text(encoding="utf-8"))
                self.files["/".join(it for it in ("proofs", place, name, str(file.relative_to(folder))) if it)] = text
        self.spare_search(change, name)
        heads = self.code.lines_of(change.path)[function.begin : function.head]
        self.added[change.path].append((function.end, name, [*heads, *re.sub(rf"\bfn {function.name}\b", f"fn {name}", body, count=1).split("\n")]))
        return name

    def add_control(self, change):
        function = change.function
        return self.add(change, "\n".join(self.code.lines_of(change.path)[function.head : function.end + 1]), "control")

    def spare_search(self, change, name):
        """Gives a function a file for answers: without one, its goals are searched once more if it is refused, for lines to propose."""
        answers = "/".join(it for it in ("proofs", self.code.places(change)[0], name, "Answers.antt") if it)
        if not (self.crate / answers).exists() and not self.code.is_in_cycle(change):
            self.files.setdefault(answers, f"-- Answers of {name}.\n")

    def texts(self):
        """Returns the texts of the files."""
        texts = dict(self.given)
        for path, added in self.added.items():
            made = []
            for at, line in enumerate(texts[path].split("\n") if path in texts else self.code.lines_of(path)):
                made.append(line)
                for _, _, copy in (it for it in added if it[0] == at):
                    made += ["", *copy]
            texts[path] = "\n".join(made)
        return texts

    def range_of(self, change, copy=""):
        """Returns the first and the last line, from 1, of a function in its file's text, or of a copy of it."""
        function, added = change.function, sorted(self.added[change.path], key=lambda it: it[0])
        before = [it for it in added if it[0] < function.end]
        above = sum(1 + len(it[2]) for it in before)
        if not copy:
            return function.begin + 1 + above, function.end + 1 + above
        beside = [it for it in added if it[0] == function.end]
        at = next(it for it, (_, name, _) in enumerate(beside) if name == copy)
        first = function.end + 3 + above + sum(1 + len(it[2]) for it in beside[:at])
        return first, first + len(beside[at][2]) - 1


class Emptied:
    """The functions of a crate but for some, each with a hole in place of its body, in as many lines."""

    def __init__(self, code, kept, given, spared=()):
        self.texts, self.files, self.folders, self.functions = {}, {}, [], {}
        for it in code.functions():
            if place_of(it) not in kept and it.path not in spared and code.can_be_emptied(it):
                self.empty(code, it, given)

    def empty(self, code, change, given):
        function, path = change.function, change.path
        if path not in self.texts:
            self.texts[path] = (given[path] if path in given else "\n".join(code.lines_of(path))).split("\n")
        lines = self.texts[path]
        indent = lines[function.head][: len(lines[function.head]) - len(lines[function.head].lstrip())]
        first = next((it for it in range(function.head, function.end) if lines[it].endswith("{") and (it == function.head or lines[it] == indent + "{" or lines[it].startswith(indent + ")"))), None)
        if first is None or first + 1 >= function.end:
            return
        lines[first + 1 : function.end] = [f"{indent}    unreachable!()", *[""] * (function.end - first - 2)]
        places = code.places(change)
        self.folders += ["/".join(filter(None, ["proofs", it, function.name])) for it in places]
        module = ".".join(filter(None, [code.crate.name, "proofs", places[0].replace("/", "."), function.name]))
        self.files[f"{self.folders[-2]}/Answers.antt"] = f"use Rattle.{module}.Goals as goal\n\npub unreachable-requires : goal.unreachable-requires\nunreachable-requires = ?\n"
        self.functions[code.path_of(change)] = change

    def given(self):
        """Returns the texts of the files in which functions are emptied."""
        return {path: "\n".join(lines) for path, lines in self.texts.items()}

    def unfit(self, crate, sheet, said, lines):
        """Returns the places of those that a check refuses: they need their bodies."""
        found = {place_of(it) for path, it in self.functions.items() if is_refused(lines.get(f"{crate}::{path}", ""))}
        for at in AT.finditer(said) if not lines else ():
            for it in (it for it in self.functions.values() if it.path == at[1]):
                first, last = sheet.range_of(it)
                found |= {place_of(it)} if first <= int(at[2]) <= last else set()
        return found


@dataclass(eq=False)
class Mark:
    """Where a check judges an edit: a function that it changes, or that names a constant which it does, or the copy of one."""

    edit: Edit
    change: Change
    copy: str = ""

    def lines(self, sheet, crate, lines):
        """Returns a check's lines of the function and of its closures, by their names."""
        name = self.copy or self.change.function.name
        path = f"{crate}::{sheet.code.path_of(self.change, name)}"
        inner = "::".join([crate, *filter(None, sheet.code.places(self.change)[1].split("/")), name, ""])
        return {of: said for of, said in lines.items() if of == path or of.startswith(inner)}

    def is_by_names_alone(self, sheet, said):
        """Returns whether all that was said of the function's proof is that a file of it names what the edit took away."""
        name = self.copy or self.change.function.name
        folders = tuple(f"proofs/{it}/{name}/" if it else f"proofs/{name}/" for it in sheet.code.places(self.change))
        first, last = sheet.range_of(self.change, self.copy)
        told = []
        for line in said.split("\n"):
            at = AT.match(line)
            if at and (at[1].startswith(folders) or at[1] == self.change.path and first <= int(at[2]) <= last):
                told.append(line)
        return bool(told) and all(NAMES.match(it) for it in told)


def is_refused(line):
    """Returns whether a function's line refuses the function itself, and not only for one that it calls."""
    return bool(re.match(r"not proved|no proof", line)) and not waits(line)


def waits(line):
    """Returns whether a function's line says only that one which it calls isn't proved."""
    return bool(re.match(r"(not proved|no proof): (it calls |the borrow checker's part in its proof is not made yet: a call of )", line))


def place_of(change):
    return change.path, change.function.owner, change.function.name


def share(code, edits):
    """Shares edits out for a check: those that stand in their places, no two at one line or function; those of which copies stand beside one of
    these; and those that a later check judges."""
    in_place, copied, later, held, fixed = [], [], [], set(), set()
    for edit in edits:
        looked = edit.changes + (users_of(code.crate, edit.constants) if edit.constants else [])
        functions = {place_of(it) for it in looked}
        places = functions | lines_changed(code.crate, edit)
        can_be_copied = not edit.constants and not any(it.function.is_of_trait or code.is_in_cycle(it) for it in edit.changes)
        if not places & held:
            in_place.append((edit, looked))
            held |= places
            fixed |= functions if not can_be_copied else set()
        elif can_be_copied and not functions & fixed:
            copied.append(edit)
        else:
            later.append(edit)
    return in_place, copied, later


def controls_of(sheet, marks):
    """Adds the controls of a check: an unchanged copy of each function of which a copy has a proof, and of one function at least, the shortest.
    Returns their paths by their functions' places."""
    paths = {}
    changes = [it.change for it in marks if it.copy and sheet.code.has_proof(it.change)]
    if not changes:
        own = [it.change for it in marks if not it.edit.constants and not it.change.function.is_of_trait and not sheet.code.is_in_cycle(it.change)]
        changes = sorted(own, key=lambda it: it.function.end - it.function.head)[:1]
    for it in changes:
        if place_of(it) not in paths:
            paths[place_of(it)] = sheet.code.path_of(it, sheet.add_control(it))
    return paths


def together(room, edits, beside=()):
    """Judges edits of functions and constants, in as few checks as they allow; the first looks at some other functions too. Returns those that
    it couldn't judge, and how many controls were proved."""
    left, apart, controls = [*edits], [], 0
    while left:
        in_place, copied, later = share(room.code, left)
        sheet = Sheet(room.code, [edit for edit, _ in in_place])
        marks = [Mark(edit, it) for edit, looked in in_place for it in looked]
        for it in marks:
            sheet.spare_search(it.change, it.change.function.name)
        marks += [Mark(edit, it, sheet.add(it, it.text, "edit")) for edit in copied for it in edit.changes]
        proved = controls_of(sheet, marks)
        held = {place_of(it.change) for it in marks}
        others = {sheet.code.path_of(it): it for it in beside if place_of(it) not in held}
        names = {sheet.code.path_of(it.change, it.copy) for it in marks} | set(proved.values()) | set(others)
        emptied = Emptied(room.code, held | {place_of(it) for it in beside} | room.whole, sheet.given)
        sheet.given |= emptied.given()
        _, said = room.check(sheet.texts(), {**emptied.files, **sheet.files}, keep=True, only=sorted(names), emptied=emptied.folders)
        lines = {it[1]: it[2] for it in LINE.finditer(said)}
        # (where the front end refuses and none of these is to blame, all keep their bodies)
        unfit = emptied.unfit(room.name, sheet, said, lines) or ({place_of(it) for it in emptied.functions.values()} if not lines else set())
        if unfit:
            room.whole |= unfit
            continue
        if not lines:
            # the front end refused: those whose lines or function it names are judged by themselves
            unknown = UNKNOWN.search(said)
            bad = {it.edit for it in marks if unknown and sheet.code.path_of(it.change, it.copy) == unknown[1]}
            bad |= {it.edit for it in marks for at in AT.finditer(said) if is_within(sheet, it, at)}
            apart += [it for it in left if it in bad]
            left = [it for it in left if it not in bad]
            if bad:
                continue
        broken = {place for place, path in proved.items() if is_refused(lines.get(f"{room.name}::{path}", "no proof"))}
        controls += len(proved) - len(broken)
        own_lines = {it: it.lines(sheet, room.name, lines) for it in marks}
        refused = {it: [of for of, line in own_lines[it].items() if is_refused(line)] for it in marks}
        room.proved |= {it for it in others if not re.match(r"not proved|no proof", lines.get(f"{room.name}::{it}", "no proof"))}
        expected = {f"{room.name}::{it}" for it in proved.values()}.union(*refused.values())
        # (where an unchanged function fails too, they say nothing)
        is_sound = bool(lines) and all(path in expected for path, said in lines.items() if is_refused(said))
        tried = list({it.edit: None for it in marks})
        if not is_sound and len(tried) > FEW:
            for part in tried[::2], tried[1::2]:
                more, well = together(room, part)
                apart, controls = apart + more, controls + well
            tried = []
        waiting = []
        for edit in tried:
            own = [it for it in marks if it.edit is edit]
            broke = [it for it in own if refused[it]]
            if is_sound and broke and not any(place_of(it.change) in broken for it in own):
                by_names = all(it.is_by_names_alone(sheet, said) for it in broke)
                edit.verdict = "refused, only because a proof names what it took away" if by_names else "refused"
            elif is_sound and any(waits(line) for it in own for line in own_lines[it].values()):
                waiting.append(edit)
            else:
                apart.append(edit)
        # (a later check judges those that wait for a function of which an edit has been judged by now)
        is_ahead = len(waiting) < len(tried)
        apart, left = apart + (waiting if not is_ahead else []), later + (waiting if is_ahead else [])
    return apart, controls


def is_within(sheet, mark, at):
    """Returns whether a place in a file is of the lines of an edit."""
    first, last = sheet.range_of(mark.change, mark.copy)
    return at[1] == mark.change.path and first <= int(at[2]) <= last


def lines_changed(crate, edit):
    """Returns the lines that an edit changes: their files and numbers."""
    found = set()
    for path, text in edit.texts.items():
        old = Path(crate, path).read_text(encoding="utf-8").split("\n")
        found |= {(path, at) for at, line in enumerate(text.split("\n")) if line != old[at]}
    return found


def with_changes(crate, edits):
    """Returns the texts of the files in which these edits change lines, each other ones."""
    texts = {}
    for path in {path for it in edits for path in it.texts}:
        lines = Path(crate, path).read_text(encoding="utf-8").split("\n")
        for edit in (it for it in edits if path in it.texts):
            changed = edit.texts[path].split("\n")
            for _, at in (it for it in lines_changed(crate, edit) if it[0] == path):
                lines[at] = changed[at]
        texts[path] = "\n".join(lines)
    return texts


def by_name(room, edits):
    """Judges edits that name the function whose proof they break, by checks of that function, which must be proved without them. Returns those
    that it couldn't judge."""
    unjudged, named = [], {it.by: named_in(room.code, it.by) for it in edits}
    left = {name: found for name, found in named.items() if not any(room.code.path_of(it) in room.proved for it in found)}
    if left:
        emptied = Emptied(room.code, {place_of(it) for found in left.values() for it in found} | room.whole, {})
        _, said = room.check(emptied.given(), emptied.files, keep=True, only=sorted(left), emptied=emptied.folders)
        left = {it for it in left if not re.match(r"not proved|no proof|$", line_at(said, room.name, it))}
    proved = {it for it in named if it in left or any(room.code.path_of(of) in room.proved for of in named[it])}
    for edit in edits:
        emptied = Emptied(room.code, {place_of(it) for it in named[edit.by]} | room.whole, {}, spared=edit.texts)
        texts = {**emptied.given(), **edit.texts}
        said = room.check(texts, emptied.files, only=[edit.by], emptied=emptied.folders)[1] if edit.by in proved else ""
        told = [it for it in said.split("\n") if re.match(r"(note: )?\S+:\d+:\d+:", it)]
        if is_refused(line_at(said, room.name, edit.by)) and any(not NAMES.match(it) for it in told):
            edit.verdict = "refused"
        else:
            unjudged.append(edit)
    return unjudged


def named_in(code, path):
    """Returns the functions with this path below the crate, or this end of it."""
    return [it for it in code.functions() if f"::{code.path_of(it)}".endswith(f"::{path}")]


def line_at(said, crate, path):
    """Returns what a check's line of the function with this path below the crate, or this end of it, says."""
    return next((it[2] for it in LINE.finditer(said) if it[1].startswith(f"{crate}::") and it[1].endswith(f"::{path}")), "")


def alone(room, edit):
    """Judges an edit by a check of the crate."""
    status, said = room.check(edit.texts)
    lines = said.rstrip("\n").split("\n")
    if status == 1 and lines[-1].startswith("logic=not-proved"):
        told = [it for it in lines if re.match(r"(note: )?\S+:\d+:\d+:", it)]
        told = [it for it in told if ": error" in it or it.startswith("note: ")] or told
        unread = next((it for it in told if AT.match(it) and AT.match(it)[1].startswith(("src/", "specs/")) and re.search(r"is not in scope|has no field|is no name|expected the end|cannot continue", it)), "")
        if unread:
            edit.verdict = f"BAD EDIT: the prover can't read it: {unread[:200]}"
        else:
            edit.verdict = "refused" if not told or any(not NAMES.match(it) for it in told) else "refused, only because a proof names what it took away"
    elif status == 0:
        edit.verdict = "NOT REFUSED: the crate is still proved with it"
    elif status == 3:
        edit.verdict = "refused"
    elif status == 1:
        edit.verdict = "BAD EDIT: " + next((it for it in lines if "error" in it), lines[-1])[:200]
    else:
        edit.verdict = f"NOT TRIED: its check ended with status {status}: {lines[-1][:200]}"


class Kept:
    """What edits came to in earlier runs on this machine: by the checksums of all that a check reads, so it never goes stale."""

    def __init__(self, top, name, anew):
        store = None if anew else repository.kept_folder("edits")
        self.at = store and store / f"{name}-{VERSION}-{repository.keys(top)[name]}.json"
        self.verdicts = {}
        if self.at and self.at.exists():
            with contextlib.suppress(ValueError):
                self.verdicts = json.loads(self.at.read_text(encoding="utf-8"))

    @staticmethod
    def of(path):
        return f"{path.stem}-{hashlib.sha256(path.read_bytes()).hexdigest()}"

    def keep(self, verdicts):
        self.verdicts |= verdicts
        if self.at:
            made = self.at.with_suffix(f".{os.getpid()}")
            made.write_text(json.dumps(self.verdicts), encoding="utf-8")
            made.replace(self.at)


@dataclass
class Judged:
    """What the edits of a crate came to."""

    edits: list
    kept: int = 0
    checks: int = 0
    controls: int = 0
    seconds: float = 0


def judge(name, top, at, anew=False, tries=True):
    """Judges all edits of a crate of a copy in which the libraries below it are built, but those whose verdict is kept. With no tries, these alone."""
    crate, edits, kept, paths = Path(top, "crates", name), [], Kept(top, name, anew), {}
    for path in edits_of(crate):
        edit = Edit(path.stem, {}, named_by(path), verdict=kept.verdicts.get(Kept.of(path), ""))
        edits.append(edit)
        paths[edit.name] = Kept.of(path)
        if edit.verdict:
            continue
        try:
            edit.texts = texts_of(path, crate)
            changes_of(edit, crate)
        except (Bad, OSError, ValueError) as error:
            edit.verdict = f"BAD EDIT: {error}"
    todo = [it for it in edits if not it.verdict]
    judged = Judged([it for it in edits if it not in todo or tries], len(edits) - len(todo))
    if todo and tries:
        with tempfile.TemporaryDirectory(prefix=f"edits-{name}-", dir=at) as place:
            room = Room(name, top, place)
            named = [it for it in todo if it.by]
            apart = [it for it in todo if it not in named and (it.is_elsewhere or not it.changes and not it.constants)]
            beside = [of for name in dict.fromkeys(it.by for it in named) for of in named_in(room.code, name)]
            left, judged.controls = together(room, [it for it in todo if it not in named + apart], beside)
            left += by_name(room, named) + apart
            if len(left) > 1:
                room.check({}, keep=True)
            for edit in left:
                alone(room, edit)
            judged.checks, judged.seconds = room.checks, room.seconds
        kept.keep({paths[it.name]: it.verdict for it in todo if it.is_refused})
    return judged
