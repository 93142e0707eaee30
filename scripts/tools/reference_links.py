"""Looks through the pages of docs/reference for what has to be there."""

import collections
import functools
import os
import re

from contracts import contracts, is_read
from items import ROOT

FUNCTION = re.compile(r'^ *(?:pub(?:\(crate\))? )?(?:(?:const|unsafe|extern "C") )*fn (\w+)', re.M)
PUBLIC = re.compile(r'^ *pub (?:(?:const|unsafe|extern "C") )*fn (\w+)', re.M)
FENCE = re.compile(r"^```rust\n(.*?)^```$", re.M | re.S)
LINK = re.compile(r"\]\(([^)#]*)(?:#([^)]*))?\)")


def functions():
    """Returns the names of the functions of each crate whose contracts others read, as often as the crate has one of the name."""
    found = collections.defaultdict(list)
    for contract in contracts():
        if contract.kind == "fn" and is_read(contract):
            found[contract.crate].append(contract.name)
    return {crate: collections.Counter(names) for crate, names in found.items()}


def declared_public():
    """Returns the same by the first words of lines alone, for functions that are `pub` themselves."""
    found = collections.defaultdict(collections.Counter)
    for path in sorted(ROOT.glob("crates/*/src/**/*.rt")):
        found[path.relative_to(ROOT / "crates").parts[0]].update(PUBLIC.findall(path.read_text(encoding="utf-8")))
    return found


def lost_functions(pages):
    """Yields each such function that isn't on its crate's page, by either count."""
    for wanted in (functions(), declared_public()):
        for crate, names in wanted.items():
            shown = collections.Counter(FUNCTION.findall("\n".join(FENCE.findall(pages.get(f"{crate}.md", "")))))
            for name in names - shown:
                yield f"docs/reference/{crate}.md has {shown[name]} functions {name}, and should have {names[name]}"


def lost_words(pages, definitions):
    """Yields each word of these contracts that isn't on its crate's page, with the comment above it, or in the list of the kit's."""
    for crate, words in definitions.cited.items():
        rows = re.findall(r"^\|[^|]*\|([^|]*)\| .+ \|$", pages.get(f"{crate}.md", ""), re.M)
        told = set(re.findall(r'<a id="([^"]*)"></a>', "\n".join(rows)))
        for file, word in sorted(words):
            if f"{file}.{word}" not in told:
                yield f"docs/reference/{crate}.md doesn't say what {word} of specs/{file}.antt is"
    index = set(re.findall(r"`(\w+)`", pages.get("README.md", "")))
    yield from (f"docs/reference/README.md doesn't have {word} of {file}" for file, words in definitions.of_kit.items() for word in words - index)


def lost_links(pages):
    """Yields each link that leads to nothing."""
    anchors = {name: set(re.findall(r'<a id="([^"]*)"', text)) for name, text in pages.items()}
    exists = functools.cache(lambda file: os.path.exists(ROOT / "docs/reference" / file))
    for name, text in pages.items():
        for file, anchor in set(LINK.findall(FENCE.sub("", text))):
            if not exists(file) or anchor and anchor not in anchors.get(file or name, ()):
                yield f"docs/reference/{name} has a link to {file}#{anchor}"


def lost(pages, definitions):
    """Returns what was counted, in words, and what isn't there."""
    public = sum(sum(names.values()) for names in functions().values())
    words = sum(len(cited) for cited in definitions.cited.values())
    kit = sum(len(cited) for cited in definitions.of_kit.values())
    links = sum(len(set(LINK.findall(FENCE.sub("", text)))) for text in pages.values())
    missing = sorted({*lost_functions(pages), *lost_words(pages, definitions), *lost_links(pages)})
    return f"{public} functions, {words} words of their contracts and {kit} of the kit's, {links} links", missing
