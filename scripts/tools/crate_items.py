"""Sorts what a crate declares into what other crates can name, and what only its own modules can, by modules."""

import re

from items import items_of

MEMBERS = ("fn", "const", "type", "ghost")


def head_of_file(path):
    """Returns the paragraphs of the comment that a file begins with."""
    lines = path.read_text(encoding="utf-8").split("\n")
    head = [line[3:].removeprefix(" ") for line in lines[: next((k for k, line in enumerate(lines) if not line.startswith("//!")), len(lines))]]
    return [paragraph for paragraph in "\n".join(head).split("\n\n") if paragraph]


def sentence_of(paragraph):
    """Returns the first sentence."""
    text = " ".join(paragraph.split())
    found = re.match(r".*?\.(?= [A-Z`]|$)", text)
    return found[0] if found else text


class Module:
    """A file of src/: what it says of itself, and what it declares."""

    def __init__(self, path, folder):
        self.path = path
        parts = path.relative_to(folder).with_suffix("").parts
        self.name = "::".join(parts)
        self.head = head_of_file(path)
        self.items = items_of(path)

    def members(self, block):
        """Returns the members of an impl, a trait or a struct."""
        return [item for item in self.items if item.kind in MEMBERS and item.owner and block.start < item.start < block.end]


class CrateItems:
    """The modules of a crate, and which of their items other crates can name."""

    def __init__(self, crate):
        self.crate = crate
        folder = crate.folder / "src"
        text = crate.root.read_text(encoding="utf-8")
        self.open_modules = set(re.findall(r"^pub mod (\w+);", text, re.M))
        listed = re.findall(r"^pub use (\w+)::(?:\{([^}]*)\}|(\w+));", text, re.M)
        names = [(module, name.strip()) for module, several, one in listed for name in (several or one).split(",") if name.strip()]
        self.modules = [Module(path, folder) for path in sorted(folder.rglob("*.rt"), key=lambda path: (path != crate.root, path))]
        own = {module.name.split("::")[0] for module in self.modules}
        self.named = {name for module, name in names if module in own}
        # What the crate names for others, and another crate declares.
        self.passed_on = [(module, name) for module, name in names if module not in own]
        declared = {item.name for module in self.modules for item in module.items if item.kind in ("struct", "enum", "trait")}
        self.hidden = declared - self.named - {
            item.name for module in self.modules if module.name in self.open_modules for item in module.items if item.is_public
        }

    def is_open(self, item):
        """Returns true if another crate can name an item, or call it."""
        if self.crate.is_program:
            return False
        if item.kind == "fn" and 'extern "C"' in item.text:
            return True
        if item.owner:
            trait = item.trait.partition("<")[0].split("::")[-1]
            return item.owner not in self.hidden and trait not in self.hidden
        return item.module in self.open_modules or item.name in self.named
