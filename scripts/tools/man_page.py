"""Writes the man page of a program from what it says of itself, by the macros of man(7)."""

import re

# What stands in the place of a character, so that a page shows it as it is.
SHOWN = {"\\": r"\(rs", "-": r"\-", "'": r"\(aq", "`": r"\(ga", "^": r"\(ha", "~": r"\(ti", '"': r"\(dq"}
# The name of a value, as FILE or [OPTIONS] or <COMMAND>, in a line of usage.
VALUE = re.compile(r"<([^<>]*)>|\b([A-Z]{2,}|[A-Z](?![\w]))\b")
WEBLIKE = re.compile(r"[^\x20-\x7e]")


def plain(text):
    """Returns the text with what has a meaning for roff in its place."""
    if WEBLIKE.search(text):
        raise ValueError(f"a man page has letters of ASCII alone: {text}")
    shown = "".join(SHOWN.get(letter, letter) for letter in text)
    return r"\&" + shown if shown.startswith(".") else shown


def bold(text):
    return rf"\fB{plain(text)}\fR"


def italic(text):
    return rf"\fI{plain(text)}\fR"


def usage(text):
    """Returns a line of usage, with the names of values in italics."""
    parts, end = [], 0
    for found in VALUE.finditer(text):
        parts += [plain(text[end : found.start()]), italic(found[1] or found[2])]
        end = found.end()
    return "".join([*parts, plain(text[end:])])


def sentence(text):
    """Returns the text with a dot at its end."""
    return text if text.endswith((".", "!", "?")) else text + "."


def option_head(option):
    """Returns how an option is written."""
    names = ", ".join(bold(name) for name in (option.short, option.long) if name)
    return f"{names} {italic(option.value)}" if option.value else names


def tagged(head, said):
    """Returns the lines of a paragraph with a head."""
    return [".TP", head, plain(sentence(said))]


def operands(told):
    """Returns the lines of the operands and the options."""
    lines = []
    for shown, said in told.arguments:
        lines += tagged(usage(shown), said)
    for option in told.options:
        if option.long != "--help" or " " not in told.name:
            lines += tagged(option_head(option), option.said)
    return lines


def example_lines(told):
    """Returns the lines of the examples."""
    lines = []
    for commands, said in told.examples:
        lines += [".PP", *([plain(sentence(said))] if said else []), ".PP", ".RS 4", ".nf"]
        lines += [*(bold(command) for command in commands), ".fi", ".RE"]
    return lines


def command_section(told):
    """Returns the lines of a command's section."""
    lines = [f'.SS "{plain(told.name)}"', f"{bold(told.name)} {usage(told.usage)}", ".PP", plain(sentence(told.about)), *operands(told)]
    if told.examples:
        lines += [".PP", "Examples:", *example_lines(told)]
    for number, said in told.statuses:
        lines += tagged(f"status {bold(number)}", said)
    return lines


def section(heading, lines):
    """Returns the lines of a section, or none if nothing is in it."""
    return [f".SH {heading}", *lines] if lines else []


def synopsis(top, commands):
    """Returns the lines of the synopsis: a line for each command."""
    lines = []
    for told in commands or [top]:
        lines += [*([".br"] if lines else []), f"{bold(told.name)} {usage(told.usage)}"]
    return lines


def statuses(top):
    """Returns the lines of the exit statuses."""
    lines = []
    for number, said in top.statuses:
        lines += tagged(bold(number), said)
    return lines


def see_also(name, others):
    """Returns the lines that name the other programs."""
    return [", ".join(rf"{bold(other)}(1)" for other in others if other != name)] if len(others) > 1 else []


def man_page(name, short, version, top, commands, others):
    """Returns the page of the program of this name, which does what `short` says; `others` are the names of all programs."""
    lines = [
        r'.\" Made by scripts/tools/pages from what the program prints at --help.',
        f'.TH {plain(name.upper())} 1 "Version {version}" "Lughemra" "User Commands"',
        *section("NAME", [rf"{plain(name)} \- {plain(short)}"]),
        *section("SYNOPSIS", synopsis(top, commands)),
        *section("DESCRIPTION", [plain(sentence(top.about))]),
        *section("OPTIONS", operands(top)),
        *section("COMMANDS", [line for told in commands for line in command_section(told)]),
        *section("EXAMPLES", example_lines(top)),
        *section(r'"EXIT STATUS"', statuses(top)),
        *section(r'"SEE ALSO"', see_also(name, others)),
    ]
    return "\n".join(lines) + "\n"
