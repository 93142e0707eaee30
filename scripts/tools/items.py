"""Reads what the files of crates/*/src declare, in the layout of rt fmt: an item begins at the margin, a member of one four columns in."""

import functools
import pathlib
import re

ROOT = pathlib.Path(__file__).resolve().parents[2]

# The ghost members that prove something of the others, and state nothing.
PROOFS = ("coded", "laws", "size_decreases")

HEAD = re.compile(
    r"( {0}| {4})(pub |pub\(crate\) )?"
    r'(?:(?:(?:const|unsafe|extern "C") )*(?P<fn>fn) (?P<function>\w+)'
    r"|(?P<kind>struct|enum|const|type|ghost) (?!use )(?P<name>\w+)"
    r"|(?:unsafe )?(?P<block>impl|trait)\b(?P<of>.*))"
)
# What holds brackets that open and close nothing.
NO_CODE = re.compile(r"""//.*|"(?:\\.|[^"\\])*"|'(?:\\.|[^'\\])'""")
CLAUSE = re.compile(r"^\s*(ensures|requires)(?: (\w+))? \{", re.M)
WORD = re.compile(r"\w+")


class Item:
    """What a file declares. Its text is, of a function, the head with the clauses, and of all else what stands there."""

    def __init__(self, path, kind, name, lines, start, end):
        self.path = path
        self.crate, _, *folders = path.relative_to(ROOT / "crates").parts
        self.module = "::".join([*folders[:-1], path.stem])
        self.kind, self.name = kind, name
        self.doc, self.notes, self.attributes = above(lines, start)
        self.lines = lines[start:end]
        self.start, self.end = start, end
        # Public as the sources declare it; what a trait has, is as public as the trait, and so is what an impl of a trait has.
        self.owner, self.trait, self.is_public = "", "", False
        # `pub(crate)` is public to the crate.
        self.is_shared = False

    @property
    def text(self):
        return "\n".join(re.sub(r"//.*", "", line) for line in self.lines)

    @property
    def called(self):
        """Returns the name of a member with the owner's before it, and of all else its name."""
        return f"{self.owner}::{self.name}" if self.owner and self.kind in ("fn", "const", "type", "ghost") else self.name

    @property
    def clauses(self):
        return {name for _, name in CLAUSE.findall(self.text) if name}

    def named_clauses(self, word):
        """Returns the names of the clauses with this first word, in order; a clause without a name has an empty one."""
        return [name for kind, name in CLAUSE.findall(self.text) if kind == word]


def above(lines, start):
    """Returns what stands directly above a line: its `///` lines, its `//` lines, and its attributes."""
    doc, notes, attributes = [], [], []
    for number in range(start - 1, -1, -1):
        line = lines[number].strip()
        if line.startswith("///"):
            doc.insert(0, line[3:].removeprefix(" "))
        elif line.startswith("//") and not line.startswith("//!"):
            notes.insert(0, line[2:].removeprefix(" "))
        elif line.startswith("#["):
            attributes.insert(0, line)
        else:
            break
    return doc, notes, attributes


def depth_of(line):
    """Returns how many more brackets a line opens than it closes."""
    code = NO_CODE.sub("", line)
    return sum(code.count(sign) for sign in "([{") - sum(code.count(sign) for sign in ")]}")


def head_of(lines, number, indent):
    """Returns a function's head without the brace that begins its body, and the number of the line behind all of the function."""
    head, depth, has_clauses = [], 0, False
    for later in range(number, len(lines)):
        line = lines[later]
        if depth == 0 and line in (indent + "{", indent + "{}"):
            return head, behind(lines, later, (indent + "}", indent + "{}"))
        has_clauses = has_clauses or re.match(r"\s*(?:ensures|requires)\b", line) is not None
        depth += depth_of(line)
        if depth == 0 and line.endswith(";"):
            return [*head, line], later + 1
        if depth == 0 and not has_clauses and line.endswith(" {}"):
            return [*head, line.removesuffix(" {}")], later + 1
        if depth == 1 and not has_clauses and line.endswith(" {"):
            return [*head, line.removesuffix(" {")], behind(lines, later + 1, (indent + "}",))
        head.append(line)
    return head, len(lines)


def behind(lines, number, closing):
    """Returns the number of the line behind the first one that is one of these, from here on."""
    return next((later + 1 for later in range(number, len(lines)) if lines[later] in closing), len(lines))


def end_of(lines, number):
    """Returns the number of the line behind the type, the block, the constant or the ghost member that begins at a line."""
    depth = 0
    for later in range(number, len(lines)):
        depth += depth_of(lines[later])
        if depth == 0 and lines[later].endswith((";", ",", "}")):
            return later + 1
    return len(lines)


def owner_of(block, head):
    """Returns the name of the type or the trait of a block, and the trait that an impl is of."""
    head = head.removesuffix("{}").removesuffix("{").strip()
    if block == "impl":
        head = re.sub(r"^<(?:[^<>]|<[^<>]*>)*> ?", "", head)
    of_trait, _, of_type = head.partition(" for ")
    words = WORD.findall(re.sub(r"<.*|&(?:'\w+ )?(?:mut )?", "", of_type or of_trait))
    if block == "trait":
        return words[0], words[0]
    return words[-1] if words else "", of_trait if of_type else ""


class Reader:
    """Reads the items of a file."""

    def __init__(self, path):
        self.path = path
        self.lines = path.read_text(encoding="utf-8").split("\n")
        # What the members here are of: the item, its name, and the trait.
        self.block, self.owner, self.trait = None, "", ""

    def items(self):
        """Yields each item, and behind an impl, a trait or a struct its members."""
        for number, line in enumerate(self.lines):
            if line == "}":
                self.block, self.owner, self.trait = None, "", ""
            found = HEAD.match(line)
            if found and not found[1]:
                yield self.outermost(number, found)
            elif found and self.block:
                yield self.member(number, found)

    def item(self, number, found):
        """Returns the item that begins at a line."""
        if found["fn"]:
            head, end = head_of(self.lines, number, found[1])
            item = Item(self.path, "fn", found["function"], self.lines, number, end)
            item.lines = head
        else:
            item = Item(self.path, found["block"] or found["kind"], found["name"], self.lines, number, end_of(self.lines, number))
        item.is_public, item.is_shared = found[2] == "pub ", bool(found[2])
        return item

    def outermost(self, number, found):
        item = self.item(number, found)
        if found["block"]:
            item.owner, item.trait = owner_of(found["block"], found["of"])
            item.name = item.owner
        if item.end > number + 1 and item.kind in ("impl", "trait", "struct"):
            self.block, self.owner, self.trait = item, item.name, item.trait
        return item

    def member(self, number, found):
        item = self.item(number, found)
        item.owner, item.trait = self.owner, self.trait
        if self.block.kind == "struct":
            item.is_public = item.is_public and self.block.is_public
        elif self.trait:
            item.is_public = self.block.kind == "impl" or self.block.is_public
        return item


@functools.cache
def items_of(path):
    """Returns what a file declares, in order."""
    return tuple(Reader(path).items())
