"""Makes the man page and the completions of each program, from what it prints at --help.

All are made from clap's description of the command line, so they say what the program does, and scripts/checks/pages sees that those
in share/ are the ones that are made.
"""

from completions import bash, fish, zsh
from help_text import whole_help
from man_page import man_page
from program_list import built, programs, version

# Where each stands in share/.
MAN = "man/man1/{}.1"
BASH = "bash-completion/completions/{}"
ZSH = "zsh/site-functions/_{}"
FISH = "fish/vendor_completions.d/{}.fish"


def program_paths(root, words):
    """Returns the path of each program: that of a word NAME=PATH, or else where it is built. Raises FileNotFoundError for one that
    isn't there."""
    told = dict(word.split("=", 1) for word in words)
    unknown = set(told) - set(programs(root))
    if unknown:
        raise ValueError(f"no such program: {', '.join(sorted(unknown))}")
    paths = {name: told.get(name) or built(root, name) for name in programs(root)}
    for name, path in paths.items():
        if not root.joinpath(path).is_file():
            raise FileNotFoundError(f"{name} is not at {path}: ./gate builds it")
    return paths


def program_pages(root, paths):
    """Returns the text of each man page and each completion, by its path in share/."""
    shorts, pages = programs(root), {}
    for name, path in paths.items():
        top, commands = whole_help(name, path)
        pages[MAN.format(name)] = man_page(name, shorts[name], version(root), top, commands, list(shorts))
        for place, write in ((BASH, bash), (ZSH, zsh), (FISH, fish)):
            pages[place.format(name)] = write(name, top, commands)
    return pages


def write_pages(folder, pages):
    """Writes the pages into the folder."""
    for path, text in pages.items():
        (folder / path).parent.mkdir(parents=True, exist_ok=True)
        (folder / path).write_text(text, encoding="utf-8")
