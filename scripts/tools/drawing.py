"""Draws the run of a script of `play`: the picture, and what of the output each row shows."""

from xml.sax.saxutils import escape

from play_model import lines_of

# ---- measures and colours

ROW, TOP, EDGE = 26, 74, 16
LETTER = 7.25  # the width of a letter of the script
LANES, GAP, APART = 150, 70, 40  # between the two lanes of a connection, in front of its first one, and between two connections
MOST_DIGITS = 12  # of hexadecimal digits that the picture shows in one word

INK, PALE, FAINT, WRONG, RULE = "#222222", "#767676", "#bdbdbd", "#b3261e", "#5b3fa0"
COLOURS = {"done": "#19703f", "sent": "#1f5fa8", "pending": "#b06f00", "lost": "#b3261e", "untold": "#767676"}
STATES = {"done": "done: it holds all answers of its entry", "sent": "sent: it is unacknowledged and holds none",
          "pending": "pending: its last answer hasn't come", "lost": "lost: its client was told the end first",
          "untold": "untold: the run ended at a fault"}


# ---- what is drawn


class Picture:
    """An SVG, from back to front in three sheets: lanes, what moves, and marks with their words."""

    def __init__(self):
        self.sheets = [], [], []

    def line(self, sheet, x, y, x2, y2, colour=INK, width=1.0, dash=None):
        dashes = f' stroke-dasharray="{dash}"' if dash else ""
        self.sheets[sheet].append(f'<line x1="{x:g}" y1="{y:g}" x2="{x2:g}" y2="{y2:g}" stroke="{colour}" stroke-width="{width:g}"{dashes}/>')

    def words(self, x, y, words, colour=INK, size=12, anchor="start", mono=False, bold=False, full=None):
        """Writes words that stand on y, with all of what they say in `full` where that is more."""
        title = f"<title>{escape(full)}</title>" if full and full != words else ""
        weight = ' font-weight="bold"' if bold else ""
        family = "monospace" if mono else "sans-serif"
        self.sheets[2].append(f'<text x="{x:g}" y="{y:g}" fill="{colour}" font-size="{size}" font-family="{family}" text-anchor="{anchor}"{weight}'
                              f' xml:space="preserve">{title}{escape(words)}</text>')

    def over(self, x, y, words, colour=INK, anchor="middle"):
        """Writes small words on a white ground."""
        width = 6.4 * len(words) + 6
        left = {"middle": x - width / 2, "start": x - 3, "end": x - width + 3}[anchor]
        self.sheets[2].append(f'<rect x="{left:g}" y="{y - 10:g}" width="{width:g}" height="13" fill="#ffffff"/>')
        self.words(x, y, words, colour, 11, anchor)

    def arrow(self, x, y, x2, words, colour=INK):
        tip = 7 if x2 > x else -7
        self.line(1, x, y, x2 - tip, y, colour, 1.6)
        self.sheets[1].append(f'<polygon points="{x2:g},{y:g} {x2 - tip * 1.4:g},{y - 4.5:g} {x2 - tip * 1.4:g},{y + 4.5:g}" fill="{colour}"/>')
        self.over((x + x2) / 2, y + 4, words, colour)

    def stub(self, x, y, x2):
        """Where bytes might have moved, and none did."""
        tip = 22 if x2 > x else -22
        self.line(1, x, y, x + tip, y, PALE, 1.4, "2 3")
        self.over(x + tip + (6 if tip > 0 else -6), y + 4, "0", PALE)

    def cross(self, x, y, colour=WRONG, size=6):
        self.sheets[2].append(f'<circle cx="{x:g}" cy="{y:g}" r="{size + 2.5:g}" fill="#ffffff"/>')
        self.line(2, x - size, y - size, x + size, y + size, colour, 2.4)
        self.line(2, x - size, y + size, x + size, y - size, colour, 2.4)

    def call(self, x, y, state):
        colour = COLOURS[state]
        if state == "sent":
            self.sheets[2].append(f'<polygon points="{x:g},{y + 7:g} {x - 7:g},{y - 6:g} {x + 7:g},{y - 6:g}" fill="{colour}"/>')
            return
        self.sheets[2].append(f'<circle cx="{x:g}" cy="{y:g}" r="6.5" fill="{colour if state == "done" else "#ffffff"}" stroke="{colour}" stroke-width="2"/>')
        if state == "lost":
            self.line(2, x - 3, y - 3, x + 3, y + 3, colour, 1.8)
            self.line(2, x - 3, y + 3, x + 3, y - 3, colour, 1.8)

    def entry(self, x, y, colour=INK):
        self.sheets[2].append(f'<rect x="{x - 6:g}" y="{y - 6:g}" width="12" height="12" fill="{colour}"/>')

    def stand(self, x, y):
        """A lane begins, or goes on in other hands."""
        self.sheets[2].append(f'<circle cx="{x:g}" cy="{y:g}" r="3.5" fill="{INK}"/>')

    def refused(self, x, y):
        self.sheets[2].append(f'<circle cx="{x:g}" cy="{y:g}" r="5.5" fill="#ffffff" stroke="{WRONG}" stroke-width="1.5" stroke-dasharray="2 2"/>')

    def svg(self, width, height, title):
        head = f'<svg xmlns="http://www.w3.org/2000/svg" width="{width:g}" height="{height:g}" viewBox="0 0 {width:g} {height:g}" role="img">'
        ground = f'<rect width="{width:g}" height="{height:g}" fill="#ffffff"/>'
        return "\n".join([head, f"<title>{escape(title)}</title>", ground, *(part for sheet in self.sheets for part in sheet), "</svg>", ""])


# ---- what happened


def shown(line):
    """Returns a line with signs that XML can hold."""
    return "".join(chr(byte) if 32 <= byte < 127 else f"\\x{byte:02x}" for byte in line)


def shortened(text):
    digits = set("0123456789abcdefABCDEF")
    return " ".join(word if len(word) <= 2 * MOST_DIGITS or set(word) - digits else word[:MOST_DIGITS] + ".." for word in text.split(" "))


def told(script, output):
    """Returns the rows, each the number of a line, its text, and what was written for it (None of a comment), and the lines that
    end the output."""
    rows, left = [], output
    for number, line in enumerate(lines_of(script), 1):
        if line == b"":
            continue
        if line.startswith(b"#"):
            rows.append((number, shown(line), None))
        elif left and not left[0].startswith("calls "):
            rows.append((number, shown(line), left[0]))
            left = left[1:]
        else:
            break
    return rows, left


class Way:
    """A connection: the places of its lanes, since which row each lives and until which, and whether it is idle."""

    def __init__(self, x, y, raw):
        self.client, self.server, self.raw, self.idle = x, x + LANES, raw, False
        self.since, self.until = y, {"client": None, "server": None}

    def end(self, which, y):
        """Returns the place of the lane that ends, where it hasn't ended yet."""
        if self.until[which] is not None or (self.raw and which == "client"):
            return None
        self.until[which] = y
        return getattr(self, which)


class Drawing:
    """The rows of a run, one below the other."""

    def __init__(self, rows, ending):
        self.picture, self.ways, self.rows, self.ending = Picture(), {}, rows, ending
        self.states = [line.split(" ")[5] for line in ending if line.startswith("call ")]
        longest = max([len(shortened(text)) for _, text, _ in rows] + [24])
        self.left = EDGE + (longest + 5) * LETTER + GAP
        many = sum(written is not None and written.startswith("connection") and not written.endswith("used") for _, _, written in rows)
        self.right = self.left + max(many, 1) * (LANES + GAP + APART) - APART - GAP + 80
        self.legend = EDGE + max([len(shortened(line)) for line in ending] + [0]) * LETTER + 80
        widest = max([len(shortened(written)) for _, _, written in rows if written] + [0])
        self.width = max(self.right + widest * LETTER, self.legend + 380) + EDGE
        self.bottom = TOP + len(rows) * ROW

    def draw(self):
        for i, (number, text, written) in enumerate(self.rows):
            y = TOP + i * ROW + ROW / 2
            comment = written is None
            self.picture.words(EDGE + 3 * LETTER, y + 4, str(number), PALE, 12, "end", True)
            self.picture.words(EDGE + 4 * LETTER, y + 4, shortened(text), PALE if comment else INK, 12, mono=True, full=text)
            if not comment:
                bad = written.startswith(("refused", "closed", "fault")) or " closed " in written
                self.picture.words(self.right, y + 4, shortened(written), WRONG if bad else INK, 12, mono=True, full=written)
                self.draw_event(y, text.split(" "), written.split(" "))
        self.draw_lanes()
        height = self.draw_ending(self.bottom + 30)
        return self.picture.svg(self.width, height, "The run of a script of play: time runs downwards, a row a line of the script")

    def draw_event(self, y, words, written):
        way = self.ways.get(int(words[1])) if len(words) > 1 and words[1].isdigit() else None
        if written[0] in ("refused", "fault"):
            if way:
                self.picture.refused(way.server if words[0] in ("down", "answer", "cutdown", "rawtake") else way.client, y)
        elif written[0] == "connection":
            self.draw_open(y, int(written[1]), written[2])
        elif words[0] in ("clear", "restart"):
            self.draw_rule(y, words[0])
        elif way:
            getattr(self, "draw_" + {"exhaust": "call", "send": "call", "raw": "up", "rawtake": "down", "return": "give_back"}.get(words[0], words[0]))(
                y, way, written)

    def draw_open(self, y, c, how):
        if how != "used":
            self.ways[c] = Way(self.left + len(self.ways) * (LANES + GAP + APART), y, how == "raw")
        way = self.ways[c]
        way.idle = False
        if not way.raw:
            self.picture.stand(way.client, y)
        self.picture.stand(way.server, y)
        self.picture.line(1, way.client, y, way.server, y, FAINT, 1.2)
        self.picture.over((way.client + way.server) / 2, y + 4, how, PALE)

    def draw_call(self, y, way, written):
        k = int(written[1])
        self.picture.call(way.client, y, self.states[k] if self.states else "untold")
        self.picture.over(way.client - 12, y + 4, f"call {k}", anchor="end")

    def draw_up(self, y, way, written):
        n = int(written[1])
        if n:
            self.picture.arrow(way.client, y, way.server, written[1])
        else:
            self.picture.stub(way.client, y, way.server)
        if written[2:3] == ["closed"]:
            self.cut(y, way, "server", " ".join(written[3:]))

    def draw_down(self, y, way, written):
        n = int(written[1]) if written[0] == "moved" else 0 if written[1] == "-" else len(written[1]) // 2
        if n:
            self.picture.arrow(way.server, y, way.client, str(n))
        else:
            self.picture.stub(way.server, y, way.client)

    def draw_answer(self, y, way, written):
        closed = written[0] == "closed"
        self.picture.entry(way.server, y)
        self.picture.over(way.server + 12, y + 4, "closed" if closed else f"entry {written[1]}", WRONG if closed else INK, "start")
        if closed:
            self.cut(y, way, "server", None)

    def draw_give_back(self, y, way, written):
        way.idle = written[0] == "kept"
        if written[0] == "dropped":
            self.cut(y, way, "client", None)
            self.cut(y, way, "server", None)
        else:
            self.picture.stand(way.client, y)
            self.picture.over(way.client - 12, y + 4, "kept", PALE, "end")

    def draw_cutup(self, y, way, _):
        self.cut(y, way, "server", "cut")

    def draw_cutdown(self, y, way, _):
        self.cut(y, way, "client", "cut")

    def draw_rule(self, y, word):
        self.picture.line(0, self.left - GAP + 58, y, self.right - 16, y, RULE, 1.6, "7 4")
        self.picture.over(self.left - GAP + 14, y + 4, word, RULE, "start")
        for way in self.ways.values():
            if word == "restart" and not way.raw:
                self.cut(y, way, "client", None)
            if word == "clear" and way.idle:
                self.cut(y, way, "client", None)
                self.cut(y, way, "server", None)
            way.idle = False

    def cut(self, y, way, which, words):
        """Ends a lane with a cross."""
        x = way.end(which, y)
        if x is None and words is None:
            return
        self.picture.cross(getattr(way, which), y)
        if words:
            out = 14 if which == "server" else -14
            self.picture.over(getattr(way, which) + out, y + 4, words, WRONG, "start" if out > 0 else "end")

    def draw_lanes(self):
        for c, way in self.ways.items():
            middle = (way.client + way.server) / 2
            self.picture.words(middle, TOP - 40, f"connection {c}" + (", raw" if way.raw else ""), bold=True, anchor="middle")
            self.picture.words(way.client, TOP - 20, "stranger" if way.raw else "client", anchor="middle")
            self.picture.words(way.server, TOP - 20, "server", anchor="middle")
            for which in ("client", "server"):
                x, end = getattr(way, which), way.until[which]
                self.picture.line(0, x, TOP - 14, x, way.since, FAINT, 1, "1 4")
                if way.raw and which == "client":
                    self.picture.line(0, x, way.since, x, self.bottom, FAINT, 1.5, "4 4")
                    continue
                self.picture.line(0, x, way.since, x, end or self.bottom, INK, 1.8)
                if end:
                    self.picture.line(0, x, end, x, self.bottom, FAINT, 1.5, "4 4")

    def draw_ending(self, y):
        """Draws how each call ended, the entries, and what the marks mean. Returns the height of the whole."""
        self.picture.line(0, EDGE, y - 18, self.width - EDGE, y - 18, FAINT)
        top = y
        for line in self.ending:
            words = line.split(" ")
            if words[0] == "call":
                self.picture.call(EDGE + 8, y, words[5])
            elif words[0] == "entry":
                self.picture.entry(EDGE + 8, y)
            indent = 6 if words[0] == "part" else 3
            colour = COLOURS[words[5]] if words[0] == "call" else WRONG if words[0] == "fault" else INK
            self.picture.words(EDGE + indent * LETTER, y + 4, shortened(line), colour, 12, mono=True, full=line)
            y += 20
        return max(y, self.draw_legend(self.legend, top)) + EDGE - 6

    def draw_legend(self, x, y):
        for state, meaning in STATES.items():
            if state == "untold" and self.ending[:1] != [] and self.ending[0].startswith("calls"):
                continue
            self.picture.call(x, y, state)
            self.picture.words(x + 18, y + 4, f"a call that is {meaning}")
            y += 20
        marks = [(lambda: self.picture.arrow(x - 14, y, x + 58, "51"), "so many bytes moved"), (lambda: self.picture.entry(x, y), "an entry of the log"),
                 (lambda: self.picture.cross(x, y), "closed, or told the end: nothing more comes to it"), (lambda: self.picture.refused(x, y), "a refused event")]
        for mark, meaning in marks:
            mark()
            self.picture.words(x + (68 if meaning.startswith("so") else 18), y + 4, meaning)
            y += 20
        return y
