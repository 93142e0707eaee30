"""Reads the libraries' public calls, and which of them may want memory.

A call of a library (a public function, a method of a public type, or an export for C) may want memory if
it takes an allocator, if its result can answer that memory ran out, or if it is a method of a type that keeps an
allocator: one with a collection of its own in a field, at whatever depth.
"""

import pathlib
import re

ROOT = pathlib.Path(__file__).resolve().parents[2]
LIBRARIES = sorted(path.parent.parent.name for path in ROOT.glob("crates/*/src/lib.rt"))

OWNED = {"Vec", "VecDeque", "String", "Box", "Rc", "IndexMap", "IndexSet", "Global"}
WANTS = {"AllocError", "AllocFailed"}
WANT_VARIANTS = {"OutOfMemory", "NoMemory"}

# What a borrow holds is another's.
BORROWED = re.compile(r"&\s*('\w+\s+)?(mut\s+)?(\[[^\]]*\]|\w+(<[^<>]*>)?)")


def words_of(text):
    return set(re.findall(r"\w+", text))


def code_of(path):
    """Returns the lines of a file without comments and without what stands in it for proofs."""
    lines = path.read_text(encoding="utf-8").split("\n")
    return ["" if re.match(r"\s*(//|ghost |#\[)", line) else line for line in lines]


def blocks(lines):
    """Returns each item at the left margin: its first line, and all of its lines."""
    start = None
    for number, line in enumerate(lines):
        if start is None and re.match(r"\w", line):
            start = number
        if start is not None and (re.match(r"\}|\{\}$", line) or line.endswith(";") and line[:1] != " "):
            yield lines[start], lines[start : number + 1]
            start = None


def functions(lines):
    """Returns the name and the head of each function of an item, and whether it is public."""
    for number, line in enumerate(lines):
        found = re.match(r'\s*(pub |pub\(crate\) )?(?:extern "C" )?fn (\w+)', line)
        if not found:
            continue
        head = [line]
        for later in lines[number + 1 :]:
            if head[-1].endswith("{") or re.match(r"\s*(\{|requires|ensures|where)\b", later) or later.strip() == "{":
                break
            head.append(later)
        yield found[2], " ".join(head), found[1] == "pub "


class Call:
    """A public function of a library."""

    def __init__(self, crate, path, owner, name, head):
        self.name = "::".join(part for part in (crate, path, owner, name) if part)
        self.owner = owner
        self.function = name
        self.head = head
        self.arguments, _, self.result = head.partition(" -> ") if " -> " in head else (head, "", "")
        self.is_method = re.search(r"\bself\b", self.arguments) is not None

    def is_called_in(self, text):
        """Returns true if some code calls it."""
        if self.is_method:
            return re.search(rf"\.{self.function}\(", text) is not None
        if self.owner:
            return re.search(rf"\b{self.owner}::{self.function}\(", text) is not None
        return re.search(rf"(?<![.:\w]){self.function}(::<[^(]*>)?\(", text) is not None


class Sources:
    """What the sources of the libraries say."""

    def __init__(self):
        self.fields = {}
        self.variants = {}
        self.heads = []
        for crate in LIBRARIES:
            self.read_crate(crate)
        self.keepers = self.closed(OWNED, set(), self.fields)
        wanting = {enum for enum, variants in self.variants.items() if variants & WANT_VARIANTS}
        self.wanting = self.closed(WANTS, wanting, {enum: self.fields[enum] for enum in self.variants})
        self.calls = {call.name: call for call in self.heads if self.may_want(call)}

    def read_crate(self, crate):
        source = ROOT / "crates" / crate / "src"
        lib = (source / "lib.rt").read_text(encoding="utf-8")
        open_modules = set(re.findall(r"^pub mod (\w+);", lib, re.M))
        public = words_of(" ".join(re.findall(r"^pub use \w+::(\{[^}]*\}|\w+);", lib, re.M)))
        for path in sorted(source.rglob("*.rt")):
            for first, lines in blocks(code_of(path)):
                self.read_type(crate, first, lines)
                self.read_functions(crate, path.stem, open_modules, public, first, lines)

    def read_type(self, crate, first, lines):
        found = re.match(r"(?:pub(?:\(crate\))? )?(struct|enum) (\w+)", first)
        if found:
            body = BORROWED.sub("", "\n".join(lines).partition(found[2])[2])
            self.fields[crate, found[2]] = body
            if found[1] == "enum":
                self.variants[crate, found[2]] = set(re.findall(r"^    (\w+)", body, re.M))
                self.fields[crate, found[2]] = re.sub(r"^    \w+", "", body, flags=re.M)

    def read_functions(self, crate, module, open_modules, public, first, lines):
        path = module if module in open_modules else ""
        found = re.match(r"impl(?:<.*?>)? (?:([\w:]+)(?:<.*>)? for )?(?:&'?\w* ?)?(\w+)", first)
        if not found:
            for name, head, is_public in functions(lines):
                exported = 'extern "C"' in head
                if re.match(r"pub ", first) and is_public and (path or exported or name in public):
                    self.heads.append(Call(crate, path, "", name, head))
        elif found[2] in public or path:
            for name, head, is_public in functions(lines):
                if is_public or found[1]:
                    self.heads.append(Call(crate, path, found[2], name, head))

    def types_of(self, crate, text):
        """Returns the types that a text of a crate names, each with its crate: the crate's own, where it has one of the name."""
        words = words_of(text)
        own = {(crate, word) for word in words if (crate, word) in self.fields}
        others = words - {word for _, word in own}
        return own | {it for it in self.fields if it[1] in others}

    def closed(self, names, first, bodies):
        """Returns the types of `first`, those whose bodies name one of `names`, and each whose body names one of these, at whatever depth."""
        found = first | {it for it, body in bodies.items() if words_of(body) & names}
        named = {it: self.types_of(it[0], body) for it, body in bodies.items()}
        while True:
            more = {it for it in bodies if it not in found and named[it] & found}
            if not more:
                return found
            found |= more

    def is_wanting(self, call):
        """Returns true if the result of the call can answer that memory ran out."""
        crate = call.name.split("::", maxsplit=1)[0]
        return bool(words_of(call.result) & WANTS or self.types_of(crate, call.result) & self.wanting)

    def of_crate(self, crate):
        """Returns the public calls of a crate."""
        return [call for call in self.heads if call.name.split("::")[0] == crate]

    def says_want(self, call):
        """Returns true if the call takes an allocator, or can answer that memory ran out."""
        takes = words_of(call.head) & {"Global", "AllocGlobal"}
        # A refusal that is made of another one tells that memory ran out, and takes none.
        answers = self.is_wanting(call) and call.function != "from"
        return bool(takes or answers)

    def may_want(self, call):
        """Returns true if the call may want memory, by its head and its type's fields."""
        return self.says_want(call) or (call.name.split("::", maxsplit=1)[0], call.owner) in self.keepers

    def can_answer_want(self, call):
        """Returns true if the call may err as memory ran out."""
        return call.result.strip().startswith("Result") and self.is_wanting(call)
