"""Writes what a module declares as parts of a page: a heading, the `///` lines, the declaration with its clauses, and the words of these."""

import re

from contracts import PROGRAMS, PROOFS, is_read, states

PRIVATE = "    // private fields"
TYPES = ("struct", "enum", "trait")


def is_shown(item):
    """Returns true for what the sources declare public, what implements a trait, and what of a program its modules share or has a clause."""
    return is_read(item) or item.kind == "impl" and bool(item.trait) or item.is_shared and item.crate in PROGRAMS


def fenced(lines):
    return ["```rust", *lines, "```"]


def docs(item):
    """Returns the lines of the comment of an item. A heading becomes a bold word before its paragraph, or above its list."""
    text = re.sub(r"^#+ (.*)\n\n(?!- )", r"**\1.** ", "\n".join(item.doc), flags=re.M)
    return re.sub(r"^#+ (.*)$", r"**\1.**", text, flags=re.M).split("\n") if text else []


def commented(item, indent=""):
    """Returns the comment and the declaration of an item as they stand in a listing."""
    comment = [f"{indent}/// {line}".rstrip() for line in item.doc] + [f"{indent}// {line}".rstrip() for line in item.notes]
    return [*comment, *item.lines]


def declared(lines):
    """Returns a function's head as a declaration."""
    return [*lines[:-1], lines[-1] if lines[-1].endswith(";") else lines[-1] + ";"]


def type_lines(item):
    """Returns the declaration of a type without its private fields."""
    if item.kind != "struct":
        return [*item.attributes, *item.lines]
    if len(item.lines) == 1:
        return [*item.attributes, re.sub(r"\((?!pub ).*\)", "(/* private */)", item.lines[0])]
    kept, waiting, depth, is_kept, has_private = [], [], 0, False, False
    for line in item.lines[1:-1]:
        if depth == 0 and line.lstrip().startswith(("//", "#[")):
            waiting.append(line)
            continue
        if depth == 0:
            is_kept = line.lstrip().startswith("pub ")
            has_private = has_private or not is_kept
            kept += waiting if is_kept else []
            waiting = []
        depth += sum(line.count(sign) for sign in "([{") - sum(line.count(sign) for sign in ")]}")
        kept += [line] if is_kept else []
    return [*item.attributes, item.lines[0], *kept, *([PRIVATE] if has_private else []), item.lines[-1]]


def impl_lines(block, members):
    """Returns an impl of a trait as its declarations."""
    lines = [block.lines[0].removesuffix("{}").rstrip(" {") + " {"]
    for item in members:
        if item.kind == "fn":
            lines += declared(commented(item, "    "))
        elif item.name not in PROOFS:
            lines += commented(item, "    ")
    return [*lines, "}"] if len(lines) > 1 else [lines[0] + "}"]


def trait_lines(block, members):
    """Returns a trait as what it has beside its functions."""
    rest = [line for item in members if item.kind != "fn" and item.name not in PROOFS for line in commented(item, "    ")]
    return [block.lines[0], *rest, "}"] if rest else [block.lines[0].rstrip(" {") + " { .. }"]


def without_indent(lines):
    return [line.removeprefix("    ") for line in lines]


class Entries:
    """The entries of a module."""

    def __init__(self, module, is_listed, words_line):
        self.module, self.is_listed, self.words_line = module, is_listed, words_line

    def lines(self):
        """Returns all entries: constants, each type with its methods and what it implements, and functions."""
        items = [item for item in self.module.items if self.is_listed(item) and is_shown(item)]
        lines = self.constants([item for item in items if item.kind == "const" and not item.owner])
        owners = []
        for item in items:
            if item.kind in TYPES:
                lines += self.type_of(item)
            owner = item.name if item.kind in TYPES else item.owner
            if owner and owner not in owners:
                owners.append(owner)
                lines += self.members_of(owner, items)
        for item in items:
            if item.kind == "fn" and not item.owner:
                lines += self.function(item)
        return lines

    def entry(self, title, doc, listing, contracts):
        return [f"#### {title}", "", *([*doc, ""] if doc else []), *fenced(listing), "", *self.words_line(contracts)]

    def constants(self, items):
        if not items:
            return []
        return self.entry("Constants", [], [line for item in items for line in commented(item)], [])

    def type_of(self, item):
        members = self.module.members(item)
        listing = trait_lines(item, members) if item.kind == "trait" else type_lines(item)
        contracts = [member for member in members if member.kind == "ghost" and states(member) and member.is_public]
        return self.entry(f"{item.kind} `{item.name}`", docs(item), listing, contracts)

    def members_of(self, name, items):
        """Returns the methods of a type or the functions of a trait, and the traits that the type has."""
        lines = []
        for item in items:
            if item.owner == name and item.kind in ("fn", "const") and (item.trait in ("", name)):
                lines += self.function(item)
        impls = [item for item in items if item.kind == "impl" and item.trait and item.name == name]
        if impls:
            members = [self.module.members(item) for item in impls]
            listing = "\n\n".join("\n".join(impl_lines(item, own)) for item, own in zip(impls, members)).split("\n")
            contracts = [member for own in members for member in own if states(member)]
            lines += self.entry(f"Traits of `{name}`", [], listing, contracts)
        return lines

    def function(self, item):
        listing = without_indent(item.lines) if item.owner else item.lines
        return self.entry(f"`{item.called}`", docs(item), listing, [item] if item.kind == "fn" else [])
