"""Draws a file of records: the messages of each connection, one below the other as they passed."""

from drawing import APART, EDGE, FAINT, GAP, INK, LANES, LETTER, PALE, ROW, TOP, Picture, shortened, shown
from text_model import one_frame


def first_line(message):
    """Returns the first line that `msg --any` writes of a message."""
    return shown(one_frame("msg", message)[1].split(b"\n")[0])


class RecordDrawing:
    """The records of a file, a row each; time runs downwards, and the first record's is 0."""

    def __init__(self, records):
        self.picture, self.records = Picture(), records
        self.times = [f"{(record.micros - records[0].micros) / 1e6:.6f}" for record in records]
        self.left = EDGE + max([len(time) for time in self.times] + [8]) * LETTER + GAP
        many = [record.connection for record in records]
        self.places = {c: self.left + i * (LANES + APART) for i, c in enumerate(dict.fromkeys(many))}
        self.rows = {c: [i for i, other in enumerate(many) if other == c] for c in self.places}
        self.right = self.left + len(self.places) * (LANES + APART)

    def draw(self):
        lines = [first_line(record.message) for record in self.records]
        for i, (record, time, line) in enumerate(zip(self.records, self.times, lines)):
            y, x = self.row(i), self.places[record.connection]
            self.picture.words(self.left - GAP, y + 4, time, PALE, anchor="end", mono=True)
            ends = (x, x + LANES) if record.sign == ">" else (x + LANES, x)
            self.picture.arrow(ends[0], y, ends[1], str(len(record.message)))
            self.picture.words(self.right, y + 4, shortened(line), mono=True, full=line)
        self.draw_lanes()
        width = self.right + max([len(shortened(line)) for line in lines] + [24]) * LETTER + EDGE
        return self.picture.svg(width, self.row(len(self.records)) + EDGE, "The messages of a file of records: time runs downwards, a row a message")

    def row(self, i):
        return TOP + i * ROW + ROW / 2

    def draw_lanes(self):
        self.picture.words(self.left - GAP, TOP - 20, "seconds", PALE, anchor="end")
        for c, x in self.places.items():
            self.picture.words(x + LANES / 2, TOP - 40, f"connection {c}", bold=True, anchor="middle")
            for at, name in ((x, "client"), (x + LANES, "server")):
                self.picture.words(at, TOP - 20, name, anchor="middle")
                self.picture.line(0, at, TOP - 14, at, self.row(len(self.records)), FAINT, 1, "1 4")
                self.picture.line(0, at, self.row(self.rows[c][0]), at, self.row(self.rows[c][-1]), INK, 1.8)
