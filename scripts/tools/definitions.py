"""Reads the definitions of crates/*/specs, with the comments above them, and finds those that public contracts cite."""

import re

from contracts import CRATES, ROOT, cited, contracts_of, imported, is_read

# One that stands inside a module with parameters is indented, as the fields of a record are.
DEFINITION = re.compile(r"(?:(?:\w+ )?pub (?:record |data )?|  (?:abbrev pub|pub record|pub data) )(\S+)(?= |$)")
CONSTRUCTOR = re.compile(r" +(\w+) :")
HEADING = re.compile(r"-- -+ (.*)")


class Group:
    """Definitions under one comment."""

    def __init__(self, comment):
        self.comment = comment
        self.words = []
        self.type_of = {}

    def add(self, word):
        """Adds a definition. A word stands for itself."""
        self.words.append(word)
        self.type_of[word] = word


def sentence(lines):
    """Returns a comment's text as sentences: with a capital in front, and a full stop behind."""
    text = " ".join(line.strip() for line in lines).replace("|", "\\|")
    if re.match(r"[a-z]+\b", text):
        text = text[:1].upper() + text[1:]
    return text if not text or text[-1] in ".:!?" else text + "."


def groups_of(path):
    """Returns the definitions of a file of specs/, by the comments above them. One without a comment of its own belongs to the one
    before it, and else to the heading of its part of the file, or of the file."""
    groups, comment, heading, group, head = [], [], "", None, True
    for line in path.read_text(encoding="utf-8").split("\n"):
        mark = HEADING.match(line)
        if mark:
            heading, comment, group = mark[1].rstrip("- "), [], None
        elif line.lstrip().startswith("--"):
            comment.append(line.lstrip()[2:])
        elif head and (not line or line.startswith("use ")):
            heading, comment, head = sentence(comment), [], False
        elif not line:
            comment = []
        else:
            found = DEFINITION.match(line)
            constructor = CONSTRUCTOR.match(line)
            if constructor and group is not None:
                group.type_of[constructor[1]] = group.words[-1]
            if found and not line.startswith(("pub use", "pub mod", "use ")):
                if comment or group is None:
                    group = Group(sentence(comment) or sentence([heading]))
                    groups.append(group)
                group.add(found[1])
            comment = []
    return groups


class Specs:
    """The definitions of a crate, and what its door gives on."""

    def __init__(self, crate):
        folder = ROOT / "crates" / crate / "specs"
        self.files = {path.stem: groups_of(path) for path in sorted(folder.glob("*.antt")) if path.stem != "Lib"}
        self.door = {}
        lib = folder / "Lib.antt"
        for module, listed in re.findall(r"pub use Rattle\.\w+\.specs\.(\w+)\.\{([^}]*)\}", lib.read_text() if lib.exists() else ""):
            for word in listed.split(","):
                self.door[word.strip()] = module

    def find(self, module, word):
        """Returns the file and the group of a definition, and the word that its row has: a constructor is told by its type."""
        module = module.strip(".").split(".")[0] or self.door.get(word, "")
        for name in [module] if module in self.files else list(self.files):
            for group in self.files[name]:
                if word in group.type_of:
                    return name, group, group.type_of[word]
        return None


class Definitions:
    """The definitions of all crates, and which of them public contracts cite."""

    def __init__(self):
        self.specs, self.imports, self.wrong = {}, {}, []
        # Of each crate the definitions that are cited, as their file and their word; and the words of each file of the kit.
        self.cited, self.of_kit = {}, {}
        for path in sorted(ROOT.glob("crates/*/src/**/*.rt")):
            kit = imported(path.read_text(encoding="utf-8"), lambda crate: crate not in CRATES)
            for contract in contracts_of(path):
                if is_read(contract):
                    self.add(contract)
                    for crate, module, word in cited(contract, *kit):
                        self.of_kit.setdefault(f"{crate}/specs{module.replace('.', '/')}", set()).add(word)

    def add(self, contract):
        """Adds what a contract cites, and what is wrong with the comments of that."""
        for crate, file, word, group in self.words_of(contract, self.wrong):
            if (file, word) not in self.cited.setdefault(crate, set()) and not group.comment:
                self.wrong.append(f"{word} of crates/{crate}/specs/{file}.antt has no comment ({contract.called} of {contract.file})")
            self.cited[crate].add((file, word))

    def words_of(self, contract, missing):
        """Returns the crate, the file, the word and the group of each definition that a contract cites, in order."""
        if contract.path not in self.imports:
            self.imports[contract.path] = imported(contract.path.read_text(encoding="utf-8"))
        found = {}
        for crate, module, word in cited(contract, *self.imports[contract.path]):
            if crate not in self.specs:
                self.specs[crate] = Specs(crate)
            place = self.specs[crate].find(module, word)
            if place is None:
                missing.append(f"{word} of {crate}{module} isn't found ({contract.called} of {contract.file})")
            else:
                found[crate, place[0], place[2]] = place[1]
        return [(*key, group) for key, group in found.items()]
