"""What a page shows of the run of a script of `play`: the steps, the state after each, and the lanes.

All of it is what `play` writes: for the script, for the lines up to each event, and for these with a few events more, which ask
what waits. Nothing is worked out here but which entry has the connection and the payload of a call that is done.
"""

import html
import json
import os
import subprocess

from drawing import COLOURS, FAINT, INK, PALE, ROW, RULE, TOP, WRONG, Drawing, Picture, told
from play_model import play as play_by_model

ALL = 2**32  # more bytes than any way of a script holds
THEMED = {INK: "var(--ink)", PALE: "var(--pale)", FAINT: "var(--faint)", WRONG: "var(--wrong)", RULE: "var(--rule)",
          "#ffffff": "var(--ground)", COLOURS["done"]: "var(--done)", COLOURS["sent"]: "var(--sent)",
          COLOURS["pending"]: "var(--pending)"}
ROOT = os.path.dirname(os.path.dirname(os.path.dirname(os.path.realpath(__file__))))
PAGE = os.path.join(ROOT, "page")
PROGRAM = os.path.join(ROOT, "crates/bsonwire/out/bsonwire")


# ---- what `play` writes


def has_play():
    """Returns whether a program is built that knows `play`."""
    return os.access(PROGRAM, os.X_OK) and subprocess.run([PROGRAM, "play", "--help"], capture_output=True, check=False).returncode == 0


def play_by_program(script):
    return subprocess.run([PROGRAM, "play", "-"], input=script, stdout=subprocess.PIPE, check=False).stdout.decode("ascii").splitlines()


def player():
    """Returns a function that gives the lines which `play` writes for a script: by the built program, or by the model."""
    return play_by_program if has_play() else lambda script: play_by_model(script)[0]


# ---- the state after each step


def state_of(lines):
    """Returns the calls and the entries of the lines that end an output."""
    calls, entries = [], []
    for line in lines:
        words = line.split(" ")
        if words[0] == "call":
            calls.append({"connection": int(words[3]), "kind": words[4], "state": words[5], "parts": []})
        elif words[0] == "part":
            calls[-1]["parts"].append(words[1])
        elif words[0] == "entry":
            entries.append({"connection": int(words[3]), "outcome": " ".join(words[4:-2]), "body": words[-1]})
    return calls, entries


def connections_of(written):
    """Returns the connections that these lines made, by their numbers, and whether each is raw."""
    made = {}
    for line in written:
        words = (line or "").split(" ")
        if words[0] == "connection" and words[2] != "used":
            made[int(words[1])] = words[2] == "raw"
    return made


def last_of(play, lines, probe):
    """Returns the words that are written for one event more."""
    return told(*both(play, [*lines, probe]))[0][-1][2].split(" ")


def both(play, lines):
    script = "".join(line + "\n" for line in lines).encode()
    return script, play(script)


def moved(words):
    """Returns how many bytes an event moved."""
    if words[0] == "bytes":
        return 0 if words[1] == "-" else len(words[1]) // 2
    return int(words[1]) if words[0] == "moved" else 0


def waiting(play, lines, connection):
    """Returns how many requests wait at a server: as many as can be answered before one is refused."""
    count = 0
    while last_of(play, lines, f"answer {connection} 0")[0] == "entry":
        lines = [*lines, f"answer {connection} 0"]
        count += 1
    return count


def way_of(play, lines, connection, raw):
    """Returns what waits on a connection: bytes to move up and down, and requests at its server."""
    up = 0 if raw else moved(last_of(play, lines, f"up {connection} {ALL}"))
    down = moved(last_of(play, lines, f"{'rawtake' if raw else 'down'} {connection} {ALL}"))
    return {"connection": connection, "raw": raw, "up": up, "waiting": waiting(play, lines, connection), "down": down}


def steps_of(play, rows):
    """Returns the state of the world after each event."""
    steps, lines, written = [], [], []
    for index, (_, text, line) in enumerate(rows):
        if line is None:
            continue
        lines, written = [*lines, text], [*written, line]
        if line.startswith("fault"):
            steps.append({**steps[-1], "row": index} if steps else {"row": index, "calls": [], "entries": [], "ways": []})
            continue
        calls, entries = state_of(told(*both(play, lines))[1])
        ways = [way_of(play, lines, *made) for made in connections_of(written).items()]
        steps.append({"row": index, "calls": calls, "entries": entries, "ways": ways})
    return steps


# ---- the facts of the headline


def bodies_of(rows):
    """Returns the body of each call, in the order in which they were made."""
    return [text.split(" ")[2] for _, text, written in rows if written and written.startswith("call ")]


def links_of(rows, calls, entries):
    """Returns for each call the entry that has its connection and its payload, if it is done, and else None. Where several
    have both, each is taken once, in order."""
    taken, links = set(), []
    for body, call in zip(bodies_of(rows), calls):
        fits = [e for e, entry in enumerate(entries) if entry["connection"] == call["connection"] and entry["body"] == body.lower()]
        free = [e for e in fits if e not in taken] if call["state"] == "done" else []
        taken.update(free[:1])
        links.append(free[0] if free else None)
    return links


# ---- the lanes


class PagePicture(Picture):
    """The lanes of a run, with what each event adds in a group of its own."""

    def __init__(self):
        super().__init__()
        self.rows = []

    def sizes(self):
        return [len(sheet) for sheet in self.sheets]

    def end_row(self, index, since):
        """Groups what was drawn since these sizes."""
        parts = [part for sheet, size in zip(self.sheets, since) for part in sheet[size:]]
        for sheet, size in zip(self.sheets, since):
            del sheet[size:]
        self.rows.append(f'<g data-row="{index}">{"".join(parts)}</g>')

    def call_marks(self, x, y, call):
        """Draws a call in each state that it may come to; the page shows the one of its step."""
        for state in COLOURS:
            before = len(self.sheets[2])
            self.call(x, y, state)
            self.sheets[2][before:] = [f'<g data-call="{call}" data-state="{state}">{"".join(self.sheets[2][before:])}</g>']

    def page_svg(self, width, height):
        lanes = "".join(part for sheet in self.sheets for part in sheet)
        svg = (f'<svg viewBox="0 0 {width:g} {height:g}" width="{width:g}" height="{height:g}" aria-hidden="true">'
               f'<clipPath id="reached"><rect width="{width:g}" height="{height:g}"/></clipPath>'
               f'<g clip-path="url(#reached)">{lanes}</g>{"".join(self.rows)}</svg>')
        for colour, themed in THEMED.items():
            svg = svg.replace(f'"{colour}"', f'"{themed}"')
        return svg


class PageDrawing(Drawing):
    """Draws the lanes alone; the page has the words beside them."""

    MARGIN = 86

    def __init__(self, rows, ending):
        super().__init__(rows, ending)
        shift = self.left - self.MARGIN
        self.picture, self.left, self.right = PagePicture(), self.left - shift, self.right - shift
        self.width = self.right

    def draw(self):
        for index, (_, text, written) in enumerate(self.rows):
            since = self.picture.sizes()
            if written is not None:
                self.draw_event(TOP + index * ROW + ROW / 2, text.split(" "), written.split(" "))
            self.picture.end_row(index, since)
        self.draw_lanes()
        return self.picture.page_svg(self.width, self.bottom + 6)

    def draw_call(self, y, way, written):
        self.picture.call_marks(way.client, y, int(written[1]))
        self.picture.over(way.client - 12, y + 4, f"call {written[1]}", anchor="end")


# ---- the page


class NoSteps(Exception):
    """A script without a line that anything was written for."""


def run_of(name, script, play):
    """Returns all that the page shows of a run, by a function that gives the lines which `play` writes for a script."""
    rows, ending = told(script, play(script))
    if all(written is None for _, _, written in rows):
        raise NoSteps(f"{name} has no line that makes a world")
    calls, entries = state_of(ending)
    return {
        "name": name, "top": TOP, "row": ROW, "ending": ending,
        "rows": [{"number": number, "text": text, "written": written} for number, text, written in rows],
        "steps": steps_of(play, rows), "links": links_of(rows, calls, entries), "bodies": bodies_of(rows),
        "svg": PageDrawing(rows, ending).draw(),
    }


def as_script_data(value):
    """Returns JSON that may stand in an element of scripts."""
    return json.dumps(value, separators=(",", ":")).replace("<", "\\u003c")


def page_part(name):
    with open(os.path.join(PAGE, name), encoding="utf-8") as file:
        return file.read()


def filled(template, **parts):
    """Returns a page of page/ with each @NAME@ put in."""
    page = page_part(template)
    for name, text in parts.items():
        page = page.replace(f"@{name}@", text)
    return page


def page_of(name, script, play):
    """Returns a page with one run."""
    return filled("run.in.html", NAME=html.escape(name), STYLE=page_part("page.css"), PLAYER=page_part("player.html"),
                  SCRIPTS=page_part("dom.js") + page_part("player.js"), RUNS=as_script_data([run_of(name, script, play)]))
