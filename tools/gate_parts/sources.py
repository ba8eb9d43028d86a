"""The functions of a .rt file, as `rt fmt` lays it out."""
import re
from dataclasses import dataclass
from pathlib import PurePath

HEAD = re.compile(r"^( *)(?:pub(?:\([a-z ]*\))? )?(?:final )?(?:const )?(?:unsafe )?fn (\w+)")
OWNER = re.compile(r"^(?:unsafe )?(?:impl|(?:pub(?:\([a-z ]*\))? )?trait)\b")


@dataclass(frozen=True)
class Function:
    """A function with a body: its lines from the first of its comments and attributes (`begin`) and from its head (`head`) to its last."""

    name: str
    owner: str
    begin: int
    head: int
    end: int

    @property
    def is_of_trait(self):
        return bool(re.search(r"\btrait\b| for ", self.owner))

    @property
    def of_type(self):
        """The type that it is a method of, or nothing."""
        type = re.sub(r"^(?:unsafe )?impl(?:<.*?>)? ", "", self.owner).rpartition(" for ")[2]
        if type.startswith("("):
            return f"Tuple{type.count(',') + 1}"
        return re.match(r"\W*(?:\w+::)*(\w+)", type)[1] if self.owner else ""

    @property
    def of_trait_whole(self):
        """The type and behind it the trait with what it is given, of a method of a trait's impl."""
        trait, _, type = re.sub(r"^(?:unsafe )?impl(?:<.*?>)? ", "", self.owner).partition(" for ")
        return type.partition(" where ")[0] + trait

    @property
    def of_trait(self):
        """The trait that it is a method of, or nothing."""
        bare = re.sub(r"^(?:unsafe )?impl(?:<.*?>)? ", "", self.owner)
        return re.match(r"(?:\w+::)*(\w+)", bare)[1] if " for " in bare else ""


def last_of(lines, head, indent):
    """Returns the last line of the function whose head this is, or None if it has no body."""
    at = head
    while not (at == head and lines[at].endswith(("{", "{}")) or lines[at] in (indent + "{", indent + "{}") or lines[at].startswith(indent + ")") and lines[at].endswith("{")):
        if lines[at].endswith(";") and at == head or at > head and HEAD.match(lines[at]) or lines[at] == "}":
            return None
        at += 1
    if lines[at].endswith("{}"):
        return at
    return next((it for it in range(at + 1, len(lines)) if lines[it] == indent + "}"), None)


def first_of(lines, head, indent):
    """Returns the first line of the comments and attributes that stand before a head."""
    at = head
    while at and lines[at - 1].startswith(indent) and lines[at - 1][len(indent) :].startswith(("///", "#[", ")]")):
        at -= 1
        while lines[at] == indent + ")]" or lines[at].startswith(indent + " "):
            at -= 1
    return at


def functions(text):
    """Returns the functions of a file that have a body, but for those inside other functions."""
    lines, found, owner, at = text.split("\n"), [], "", 0
    while at < len(lines):
        line = lines[at]
        if OWNER.match(line):
            owner = line
        elif line == "}":
            owner = ""
        head = HEAD.match(line)
        end = last_of(lines, at, head[1]) if head else None
        if end is not None:
            found.append(Function(head[2], owner if head[1] else "", first_of(lines, at, head[1]), at, end))
            if not head[1]:
                owner = ""
            at = end
        at += 1
    return found


def module_of(path):
    """Returns the parts of the path of the module that a file of src/ holds."""
    parts = list(PurePath(path).with_suffix("").parts[1:])
    return parts[:-1] if parts[-1] in ("lib", "main", "mod") else parts
