#!/usr/bin/env python3
"""Writes what `bsonwire play SCRIPT` writes, by the definitions, and ends with its status.

    scripts/model/play_model.py SCRIPT

SCRIPT is a file, or `-` for standard input. It is written from the definitions (with scripts/model/world_ends.py and
scripts/model/world_model.py), and not from the code of the program: plain and slow. Memory never runs out.
"""

import os
import re
import sys

sys.dont_write_bytecode = True
sys.path.insert(0, os.path.dirname(os.path.realpath(__file__)))
from world_ends import Content, Fault, check_content, count, echo, want  # noqa: E402
from world_model import RANGES, Limits, World  # noqa: E402

HANDLERS = {b"echo": (echo, None), b"count": (count, None)}

# What stands behind the first word of a line: c is a connection, n another number, h a document, b one byte or more.
FORMS = {b"open": "", b"return": "c", b"call": "ch", b"exhaust": "ch", b"send": "ch", b"up": "cn", b"down": "cn", b"answer": "cn",
         b"cutup": "c", b"cutdown": "c", b"clear": "", b"restart": "", b"rawopen": "", b"raw": "cb", b"rawtake": "cn"}

# The kinds of calls have their names in the model.
CALLS = {b"call": "plain", b"send": "unacknowledged"}


# ---- what the lines say


class ScriptFault(Exception):
    """A line of another form, by its number."""


def lines_of(script):
    """Returns the lines. A CR in front of an LF is no part of its line, and the last line may lack its LF."""
    *ended, last = script.split(b"\n")
    return [line.removesuffix(b"\r") for line in ended] + ([last] if last else [])


def read_number(word):
    want(re.fullmatch(b"[0-9]{1,20}", word) and int(word) < 2**64)
    return int(word)


def read_bytes(word):
    want(re.fullmatch(b"([0-9a-fA-F]{2})+", word))
    return bytes.fromhex(word.decode())


def read_document(word):
    """Returns the payload that has this body. Its names at the top are apart, and those inside may repeat."""
    return check_content(Content(read_bytes(word)))


READERS = {"c": read_number, "n": read_number, "b": read_bytes, "h": read_document}


def read_event(line):
    word, *words = line.split(b" ")
    want(word in FORMS and len(words) == len(FORMS[word]))
    return (CALLS.get(word, word.decode()), *(READERS[form](text) for form, text in zip(FORMS[word], words)))


def read_world(line, handlers):
    """Returns the handler, its state and the limits of a world."""
    word, *words = line.split(b" ")
    want(word == b"world" and len(words) == 1 + len(RANGES) and words[0] in handlers)
    limits = Limits(*map(read_number, words[1:]))
    want(limits.are_good())
    return (*handlers[words[0]], limits)


def read(script, handlers=None):
    """Gives what the lines name: first what a world is made of, and then its events. After a line of another form it raises
    the line's number, and 1 where there is no line."""
    begun = False
    for number, line in enumerate(lines_of(script), 1):
        if line == b"" or line.startswith(b"#"):
            continue
        try:
            named = read_event(line) if begun else read_world(line, handlers or HANDLERS)
        except Fault:
            raise ScriptFault(number) from None
        begun = True
        yield named
    if not begun:
        raise ScriptFault(1)


# ---- what is written


def listed(world):
    """Returns the lines that end the output: all calls with their parts, and all entries."""
    kinds = {(False, False): "plain", (True, False): "exhaust", (False, True): "unacknowledged"}
    lines = [f"calls {len(world.calls)}"]
    for i, x in enumerate(world.calls):
        lines.append(f"call {i} connection {x.connection} {kinds[x.asked[1:]]} {x.state} {len(x.parts)}")
        lines += [f"part {part.body.hex()}" for part in x.parts]
    lines.append(f"entries {len(world.log)}")
    for e, entry in enumerate(world.log):
        outcome = "failed" if entry.answers is None else f"answers {len(entry.answers)}"
        lines.append(f"entry {e} connection {entry.connection} {outcome} body {entry.payload.body.hex()}")
    return lines


def play(script):
    """Returns the lines of the output of a script, and the status."""
    world, lines = None, []
    try:
        for named in read(script):
            if world is None:
                world = World(*named)
                lines.append("world")
            else:
                lines.append(world.step(named))
    except ScriptFault as fault:
        return [*lines, f"fault 15 Script at {fault}"], 1
    return [*lines, *listed(world)], 0


def text_of(lines):
    return "".join(line + "\n" for line in lines)


def main():
    if len(sys.argv) != 2:
        print("usage: scripts/model/play_model.py SCRIPT", file=sys.stderr)
        return 2
    try:
        with open(0 if sys.argv[1] == "-" else sys.argv[1], "rb") as file:
            script = file.read()
    except OSError as fault:
        print(f"play_model: {fault}", file=sys.stderr)
        return 3
    lines, status = play(script)
    sys.stdout.write(text_of(lines))
    return status


if __name__ == "__main__":
    sys.exit(main())
