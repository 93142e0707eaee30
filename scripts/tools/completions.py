"""Writes the completions of a program for bash, zsh and fish from what it says of itself.

A value is a file where help names it FILE or SCRIPT, or one of those that help counts as possible; for another nothing is offered.
"""

import re

FILES = ("FILE", "SCRIPT")
POSSIBLE = re.compile(r"\[possible values: ([^\]]*)\]")
MADE = "# Made by scripts/tools/pages from what the program prints at --help.\n"


def possible(said):
    """Returns the values that help counts as possible."""
    found = POSSIBLE.search(said)
    return found[1].split(", ") if found else []


def operand(shown):
    """Returns the name of an operand, without what stands around it."""
    return re.sub(r"[^A-Za-z_]", "", shown)


def names(option):
    return [name for name in (option.short, option.long) if name]


def plain(name):
    """Returns the name as a part of a function's name."""
    return re.sub(r"\W", "_", name)


# bash

# Names of files may have spaces.
BASH_FILES = 'compopt -o filenames; mapfile -t COMPREPLY < <(compgen -f -- "$word")'


def bash_values(options):
    """Returns the lines that complete the value of the option in front."""
    lines = []
    for option in (option for option in options if option.value):
        offered = BASH_FILES if option.value in FILES else ""
        if possible(option.said):
            offered = f'COMPREPLY=($(compgen -W "{" ".join(possible(option.said))}" -- "$word"))'
        lines.append(f"        {'|'.join(names(option))}) {offered or 'COMPREPLY=()'}; return ;;")
    return ['    case "$before" in', *lines, "    esac"] if lines else []


def bash_function(name, told):
    """Returns the lines of the function that completes the words of a program, or of one of its commands."""
    words = [name for option in told.options for name in names(option)]
    takes_files = any(operand(shown) in FILES for shown, _ in told.arguments)
    return [
        f"_{plain(name)}() {{",
        '    local word="${COMP_WORDS[COMP_CWORD]}" before="${COMP_WORDS[COMP_CWORD-1]}"',
        *bash_values(told.options),
        '    if [[ $word == -* ]]; then',
        f'        COMPREPLY=($(compgen -W "{" ".join(words)}" -- "$word"))',
        *(["    else", "        " + BASH_FILES] if takes_files else []),
        "    fi",
        "}",
        "",
    ]


def bash_commands(name, top, commands):
    """Returns the lines of the function that completes the words of a program with commands."""
    shown = [command for command, _ in top.commands]
    words = shown + (["help"] if top.has_help_command else []) + [name for option in top.options for name in names(option)]
    calls = [f"        {told.name.split(' ')[1]}) _{plain(told.name)} ;;" for told in commands]
    help_call = f'        help) [[ $COMP_CWORD == 2 ]] && COMPREPLY=($(compgen -W "{" ".join(shown)}" -- "$word")) ;;'
    return [
        f"_{plain(name)}() {{",
        '    local word="${COMP_WORDS[COMP_CWORD]}"',
        "    if [[ $COMP_CWORD == 1 ]]; then",
        f'        COMPREPLY=($(compgen -W "{" ".join(words)}" -- "$word"))',
        "        return",
        "    fi",
        '    case "${COMP_WORDS[1]}" in',
        *calls,
        *([help_call] if top.has_help_command else []),
        "    esac",
        "}",
        "",
    ]


def bash(name, top, commands):
    """Returns the completions for bash. They need no function of the package bash-completion, which only finds them."""
    lines = [line for told in commands for line in bash_function(told.name, told)]
    lines += bash_commands(name, top, commands) if commands else bash_function(name, top)
    return MADE + "\n".join([*lines, f"complete -F _{plain(name)} {name}"]) + "\n"


# zsh


def zsh_quoted(text):
    """Returns the text as it stands between single quotes, and in the brackets of a description."""
    return re.sub(r"([\\:\[\]])", r"\\\1", text).replace("'", "'\\''")


def zsh_value(value, said):
    """Returns how a value is completed."""
    if possible(said):
        return f":{value}:({' '.join(possible(said))})"
    return f":{value}:_files" if value in FILES else f":{value}: "


def zsh_arguments(told, indent):
    """Returns the lines of a call of _arguments."""
    specs = []
    for option in told.options:
        value = zsh_value(option.value, option.said) if option.value else ""
        apart = f"({' '.join(names(option))})" if option.short and option.long else ""
        specs += [f"'{apart}{name}[{zsh_quoted(option.said)}]{value}'" for name in names(option)]
    specs += [f"'{zsh_value(operand(shown), said)}'" for shown, said in told.arguments]
    return [indent + "_arguments \\", *(f"{indent}    {spec} \\" for spec in specs[:-1]), f"{indent}    {specs[-1]}"]


def zsh_commands(top, commands):
    """Returns the lines that complete a command's name, and then its words."""
    pairs = top.commands + ([("help", "Print the help of a command")] if top.has_help_command else [])
    described = [f"        '{zsh_quoted(command)}:{zsh_quoted(said)}'" for command, said in pairs]
    first = [f"'{name}[{zsh_quoted(option.said)}]'" for option in top.options for name in names(option)]
    cases = [["        " + told.name.split(" ")[1] + ")", *zsh_arguments(told, "            "), "            ;;"] for told in commands]
    return [
        "local -a commands",
        "local state line",
        f"_arguments -C {' '.join(first)} '1:command:->command' '*::word:->word'",
        'case "$state" in',
        "command)",
        "    commands=(",
        *described,
        "    )",
        "    _describe command commands",
        "    ;;",
        "word)",
        '    case "${line[1]}" in',
        *(line for case in cases for line in case),
        *(["        help) _values command " + " ".join(command for command, _ in top.commands) + " ;;"] if top.has_help_command else []),
        "    esac",
        "    ;;",
        "esac",
    ]


def zsh(name, top, commands):
    """Returns the completions for zsh."""
    lines = zsh_commands(top, commands) if commands else zsh_arguments(top, "")
    return f"#compdef {name}\n" + MADE + "\n".join(lines) + "\n"


# fish


def fish_quoted(text):
    return "'" + re.sub(r"(['\\])", r"\\\1", text) + "'"


def fish_words(start, told):
    """Returns the lines for the options and the operands of a program, or of one of its commands."""
    lines = []
    for option in told.options:
        line = start + (f" -s {option.short[1:]}" if option.short else "") + (f" -l {option.long[2:]}" if option.long else "")
        if option.value:
            line += " -r" + (" -F" if option.value in FILES else " -f")
            line += f" -a {fish_quoted(' '.join(possible(option.said)))}" if possible(option.said) else ""
        lines.append(f"{line} -d {fish_quoted(option.said)}")
    if any(operand(shown) in FILES for shown, _ in told.arguments):
        lines.append(f"{start} -F")
    return lines


def fish(name, top, commands):
    """Returns the completions for fish."""
    lines = [f"complete -c {name} -f"]
    if not commands:
        return MADE + "\n".join([*lines, *fish_words(f"complete -c {name}", top)]) + "\n"
    pairs = top.commands + ([("help", "Print the help of a command")] if top.has_help_command else [])
    for command, said in pairs:
        lines.append(f"complete -c {name} -n __fish_use_subcommand -a {command} -d {fish_quoted(said)}")
    lines += fish_words(f"complete -c {name} -n __fish_use_subcommand", top)
    for told in commands:
        seen = fish_quoted(f"__fish_seen_subcommand_from {told.name.split(' ')[1]}")
        lines += fish_words(f"complete -c {name} -n {seen}", told)
    if top.has_help_command:
        shown = " ".join(command for command, _ in top.commands)
        lines.append(f"complete -c {name} -n '__fish_seen_subcommand_from help' -a {fish_quoted(shown)}")
    return MADE + "\n".join(lines) + "\n"
