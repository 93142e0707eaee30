"""Reads what a program prints at --help, which is clap's description of its command line, for man pages and completions.

The text has what the program is about, its usage, and blocks with a heading each: Commands, Arguments and Options by clap, and Examples
and Exit status by the program. An entry of a block begins with few spaces; what is said of it stands behind two spaces or more, or in
the lines below it, with more spaces in front.
"""

import re
import subprocess

HEADING = re.compile(r"([A-Z][A-Za-z ]*):$")
ENTRY = re.compile(r"(\S.*?)(?:\s{2,}(\S.*))?$")
# The most spaces in front of an entry: an option without a short name has six, and an example's explanation as many.
FRONT = {"Options": 6}
NARROW = 2
OPTION = re.compile(r"(?:(-\w)(?:, |$))?(--[\w-]+)?(?:[ =]<?\[?=?<?(\w+)>?\]?)?(?:\.\.\.)?$")


class Option:
    """An option: its short and its long name, either of which may be None, the name of its value or None, and what help says of it."""

    def __init__(self, shown, said):
        found = OPTION.match(shown)
        if not found or not (found[1] or found[2]):
            raise ValueError(f"no option is spelled as {shown!r}")
        self.short, self.long, self.value = found.groups()
        self.said = said


class Help:
    """What a program, or one of its commands, says of itself. Entries are pairs of what is shown and what is said of it."""

    def __init__(self, name, text):
        self.name = name
        head, blocks = split(text)
        self.about, self.usage = about_and_usage(name, head)
        self.commands = [pair for pair in entries(blocks, "Commands") if pair[0] != "help"]
        self.has_help_command = len(self.commands) != len(entries(blocks, "Commands"))
        self.arguments = entries(blocks, "Arguments")
        self.options = [Option(*pair) for pair in entries(blocks, "Options")]
        self.examples = examples(blocks.get("Examples", []))
        self.statuses = entries(blocks, "Exit status")
        unread = set(blocks) - {"Commands", "Arguments", "Options", "Examples", "Exit status"}
        if unread:
            raise ValueError(f"the help of {name} has blocks that nothing reads: {', '.join(sorted(unread))}")


def split(text):
    """Returns the lines in front of the first heading, and those of each block by its heading."""
    head, blocks, block = [], {}, None
    for line in text.splitlines():
        found = HEADING.match(line)
        if found:
            block = blocks.setdefault(found[1], [])
        else:
            (head if block is None else block).append(line.rstrip())
    return head, blocks


def about_and_usage(name, head):
    """Returns what the program is about, and its usage without its name, which the program has from the path that it is run by."""
    at = next((number for number, line in enumerate(head) if line.startswith("Usage: ")), None)
    if at is None:
        raise ValueError(f"the help of {name} has no usage")
    words = head[at].removeprefix("Usage: ").split(" ")
    return " ".join(" ".join(head[:at]).split()), " ".join(words[len(name.split(" ")) :])


def entries(blocks, heading):
    """Returns the entries of a block, or none where there is no such block."""
    found = []
    for line in blocks.get(heading, []):
        spaces = len(line) - len(line.lstrip())
        if line and spaces <= FRONT.get(heading, NARROW):
            shown, said = ENTRY.match(line.strip()).groups()
            found.append((shown, [said] if said else []))
        elif line and found:
            found[-1][1].append(line.strip())
    return [(shown, " ".join(said)) for shown, said in found]


def examples(lines):
    """Returns each example: the lines of its commands, and what is said of them."""
    found, said = [], True
    for line in filter(None, lines):
        is_command = len(line) - len(line.lstrip()) <= NARROW
        if is_command and said:
            found.append(([], []))
        found[-1][0 if is_command else 1].append(line.strip())
        said = not is_command
    return [(commands, " ".join(text)) for commands, text in found]


def read_help(name, program, *command):
    """Runs the program of this name, and returns what it says of itself, or of its command."""
    words = [name, *command, "--help"]
    ran = subprocess.run(words, executable=program, stdin=subprocess.DEVNULL, capture_output=True, encoding="utf-8", check=False)
    if ran.returncode != 0 or ran.stderr:
        raise ValueError(f"{' '.join(words)} ended with status {ran.returncode}: {ran.stderr.strip()}")
    return Help(" ".join([name, *command]), ran.stdout)


def whole_help(name, program):
    """Returns what the program says of itself, and what each of its commands does."""
    top = read_help(name, program)
    return top, [read_help(name, program, command) for command, _ in top.commands]
