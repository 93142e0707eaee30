"""Writes the page of docs/reference/ of a crate."""

import re
from typing import NamedTuple

from crate_items import CrateItems, head_of_file, sentence_of
from crate_list import used_by
from crate_numbers import without_clause
from entries import Entries
from items import ROOT
from wrong_bodies import WrongBodies

MADE = "<!-- Written by scripts/tools/reference --write. -->"
UP = "../.."  # from the pages to the repository
# What the items are that no other crate can name, of a library and of a program.
INNER = {
    False: ("Between its modules", "What is `pub` in a module that other crates can't name."),
    True: ("Items", "A program gives nothing to other crates. These are what its modules share, and its functions that have a clause."),
}


# What a function touches, by the words of its head.
TOUCHED = {
    "sockets": r"\b(Net|Tcp\w+|Registry|Poll|Events?|Acceptor|Socket\w*|Link|HeldLink)\b",
    "the clock": r"\bClock\b",
    "files": r"\bFiles\b",
    "standard input": r"\b(Input|Stdin)\b",
    "output": r"(?<!fmt::)\b(Write|Print|Eprint|Sink)\b",
    "the command line": r"\b(HostRuntime|Env)\b",
    "a text that is shown": r"\bFormatter\b",
}


def touched(function):
    """Returns what a function touches besides its arguments, by the words of its head, or that it touches nothing."""
    return [what for what, words in TOUCHED.items() if re.search(words, function.text)] or ["nothing"]


def linked(path, text):
    return f"[{text}]({UP}/{path})"


def pages_of(names):
    return ", ".join(f"[{name}]({name}.md)" for name in names)


def names_of(calls):
    """Returns the names of calls, each once, without that of their crate."""
    return ", ".join(dict.fromkeys(f"`{call.name.split('::', 1)[1]}`" for call in calls))


def head_of_crate(crate):
    """Returns the paragraphs that a crate says of itself, and what to read first. What it stands on, crates.txt says."""
    paragraphs = head_of_file(crate.root)
    last = " ".join(paragraphs[-1].split()) if len(paragraphs) > 1 else ""
    if not re.match(r"(Uses|Stands on) ", last):
        return paragraphs, ""
    return paragraphs[:-1], last.partition("Read first: ")[2]


def sentence_of_crate(crate):
    return sentence_of(head_of_crate(crate)[0][0])


class Known(NamedTuple):
    """What the pages of all crates are made of: the cited definitions, what functions have to meet, the calls that may want memory, and the
    numbers of each crate."""

    definitions: object
    promises: object
    memory: object
    numbers: dict


class CratePage:
    """The page of a crate: what it says of itself, its numbers, its items, its definitions, its memory and its wrong bodies."""

    def __init__(self, crate, known):
        self.crate, self.known = crate, known
        self.items = CrateItems(crate)

    def text(self):
        parts = [self.head(), self.counts(), *self.all_items(), self.without(), self.words(), self.wants(), self.wrong_bodies()]
        return "\n".join(line for part in parts for line in part)

    def head(self):
        paragraphs, first = head_of_crate(self.crate)
        lines = [MADE, "", f"# {self.crate.name}", ""]
        for paragraph in paragraphs:
            lines += [*paragraph.split("\n"), ""]
        rows = [f"- Begins at {linked(self.crate.root.relative_to(ROOT), self.crate.root.name)}{f'; read first: {first}' if first else '.'}"]
        rows.append(f"- Stands on {pages_of(self.crate.uses)}." if self.crate.uses else "- Stands on no other crate.")
        if self.crate.packages:
            rows.append(f"- Uses the kit's {', '.join(f'`{name}`' for name in self.crate.packages)}.")
        users = used_by(self.crate.name)
        rows.append(f"- {pages_of(users)} {'stand' if len(users) > 1 else 'stands'} on it." if users else "- No other crate stands on it.")
        return [*lines, *rows, ""]

    def counts(self):
        columns = self.known.numbers[self.crate.name].columns()
        return [f"| {' | '.join(columns)} |", "|" + "---:|" * len(columns), f"| {' | '.join(f'{count:,}' for count in columns.values())} |", ""]

    def all_items(self):
        """Yields the part of the items that others can name, and of those that only the crate's modules can."""
        yield self.section("Public items", self.passed_on(), self.items.is_open)
        title, lead = INNER[self.crate.is_program]
        yield self.section(title, [lead, ""], lambda item: not self.items.is_open(item))

    def passed_on(self):
        names = [f"`{name}` of [{crate}]({crate}.md)" for crate, name in self.items.passed_on]
        return [f"It also passes on {', '.join(names)}.", ""] if names else []

    def section(self, title, lead, is_listed):
        lines = []
        for module in self.items.modules:
            entries = Entries(module, is_listed, self.words_line).lines()
            if entries:
                about = f": {' '.join(module.head[0].split())}" if module.head and module.path != self.crate.root else "."
                lines += [f"### {module.name}", "", linked(module.path.relative_to(ROOT), module.path.relative_to(self.crate.folder)) + about, "", *entries]
        return [f"## {title}", "", *lead, *lines] if lines else []

    def words_line(self, contracts):
        """Returns the line of the definitions that contracts cite."""
        found = {}
        for contract in contracts:
            for crate, file, word, _ in self.known.definitions.words_of(contract, []):
                page = "" if crate == self.crate.name else f"{crate}.md"
                found[crate, file, word] = f"[`{word}`]({page}#{file}.{word})"
        return [f"Words: {', '.join(found.values())}", ""] if found else []

    def without(self):
        """Returns the functions without a clause, with what they touch by their heads."""
        functions = without_clause(self.crate, self.known.promises)
        if not functions:
            return []
        lines = ["## Functions without a clause", "", "Of these no more is proved than that they are safe. What each touches is read off its head.", "",
                 "| function | what it does | touches |", "|---|---|---|"]
        for function in functions:
            about = "\n".join(function.doc).partition("\n#")[0]
            does = sentence_of(about) if about else f"What `{function.trait}` says." if function.trait else ""
            lines.append(f"| {linked(function.path.relative_to(ROOT), f'`{function.called}`')} | {does} | {', '.join(touched(function))} |")
        return [*lines, ""]

    def words(self):
        """Returns the definitions of this crate that contracts cite."""
        cited = self.known.definitions.cited.get(self.crate.name, set())
        if not cited:
            return []
        lines = ["## Definitions", "", "The words of `specs/` that contracts cite, here or in other crates, each by the comment above it.", "",
                 "| file | word | in words |", "|---|---|---|"]
        for file, groups in self.known.definitions.specs[self.crate.name].files.items():
            shown = linked(f"crates/{self.crate.name}/specs/{file}.antt", file)
            for group in groups:
                words = [f'<a id="{file}.{word}"></a>`{word}`' for word in group.words if (file, word) in cited]
                if words:
                    lines.append(f"| {shown} | {', '.join(words)} | {group.comment} |")
                    shown = ""
        return [*lines, ""]

    def wants(self):
        """Returns which public calls may want memory."""
        calls = self.known.memory.of_crate(self.crate.name)
        if not calls:
            return []
        memory = self.known.memory
        says = [call for call in calls if memory.says_want(call)]
        keeps = [call for call in calls if memory.may_want(call) and call not in says]
        rest = len(calls) - len(says) - len(keeps)
        lines = [f"- Public calls that take an allocator, or can return that memory ran out: {names_of(says)}."] if says else []
        lines += [f"- Other public calls of types that keep an allocator: {names_of(keeps)}."] if keeps else []
        if not lines:
            lines = ["No public call takes an allocator, or is of a type that keeps one."]
        elif rest:
            lines.append(f"- Public calls that do neither: {rest}.")
        return ["## Memory", "", *lines, ""]

    def wrong_bodies(self):
        rows = []
        for changed, bodies in WrongBodies(self.crate).by_function():
            names = ", ".join(f"`{item.called}`" for item in changed) or "what a file uses"
            clauses = "; ".join(filter(None, (self.clauses_of(item) for item in changed if item.kind == "fn")))
            shown = "; ".join(linked(body.path.relative_to(ROOT), body.words) for body in bodies)
            rows.append(f"| {names} | {clauses} | {shown} |")
        if not rows:
            return []
        return ["## Wrong bodies", "", "Edits that put something wrong into a function, and that the check has to refuse: by one of the clauses that"
                " are named beside it, or by what", "the function has to keep of those that it calls. A clause without a name is `ensures`.", "",
                "| function | clauses | wrong bodies |", "|---|---|---|", *rows, ""]

    def clauses_of(self, function):
        names, whose = self.known.promises.of(function)
        listed = ", ".join(f"`{name or 'ensures'}`" for name in dict.fromkeys(names))
        return f"{listed} of `{whose}`" if whose and listed else listed
