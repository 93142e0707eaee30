// The pane of bytes: sixteen to a line, or eight, with their offsets and letters.
"use strict";

class BytesPane {
  // `onHover` and `onChoose` get the offset of a byte.
  constructor(scroll, { onHover, onChoose }) {
    this.scroll = scroll;
    this.lines = new Lines(scroll, (index) => this.drawLine(index));
    this.marks = {};
    this.clear();
    scroll.addEventListener("pointermove", ({ target }) => target.dataset.at && onHover(Number(target.dataset.at)));
    scroll.addEventListener("pointerleave", () => onHover(undefined));
    scroll.addEventListener("click", ({ target }) => target.dataset.at && onChoose(Number(target.dataset.at)));
    scroll.addEventListener("keydown", (event) => {
      const next = hasModifier(event) ? undefined : this.moved(event.key);
      if (next === undefined) return;
      event.preventDefault();
      onChoose(next);
    });
    new ResizeObserver(() => this.fitWidth()).observe(scroll);
  }

  clear() {
    this.bytes = new Uint8Array();
    this.from = this.end = this.cursor = 0;
    this.perLine = 16;
  }

  get isNarrow() {
    return matchMedia("(max-width: 620px)").matches;
  }

  // Shows the bytes from `from` to `end` of all.
  show(bytes, { start, end }) {
    Object.assign(this, { bytes, from: start, end, cursor: start, marks: {} });
    this.scroll.scrollTop = 0;
    this.scroll.removeAttribute("aria-activedescendant");
    this.fitWidth();
  }

  fitWidth() {
    this.perLine = this.isNarrow ? 8 : 16;
    this.digits = Math.max(4, this.end.toString(16).length);
    this.scroll.style.setProperty("--digits", this.digits);
    const count = Math.ceil((this.end - this.from) / this.perLine);
    this.scroll.setAttribute("aria-rowcount", count);
    this.lines.setCount(count);
  }

  // Marks bytes: `lit` and `value` are those of an element, `fault` is a byte, and `inFault` what is at fault with it.
  mark(marks) {
    Object.assign(this.marks, marks);
    for (const cell of this.scroll.querySelectorAll("[data-at]")) cell.className = this.classOf(cell, Number(cell.dataset.at));
  }

  putCursor(offset) {
    this.cursor = offset;
    this.scroll.setAttribute("aria-activedescendant", `byte-${offset}`);
    this.lines.reveal(Math.floor((offset - this.from) / this.perLine));
  }

  // Brings the first byte of a place into sight.
  reveal({ start }) {
    this.lines.reveal(Math.floor((start - this.from) / this.perLine));
  }

  // Returns the offset to which a key moves the cursor.
  moved(key) {
    const far = { ArrowLeft: -1, ArrowRight: 1, ArrowUp: -this.perLine, ArrowDown: this.perLine, PageUp: -12 * this.perLine,
      PageDown: 12 * this.perLine, Home: -Infinity, End: Infinity }[key];
    return far === undefined || this.end === this.from ? undefined : Math.min(Math.max(this.cursor + far, this.from), this.end - 1);
  }

  classOf(cell, at) {
    const { lit, value, fault, inFault } = this.marks;
    const within = (place) => place && place.start <= at && at < place.end;
    const isByte = cell.role === "gridcell";
    const classes = [isByte ? "byte" : "letter"];
    if (isByte && (at - this.from) % this.perLine === 7) classes.push("middle");
    if (within(lit)) classes.push("lit");
    if (within(lit) && within(value)) classes.push("lit-value");
    if (at === fault) classes.push("fault");
    else if (within(inFault)) classes.push("in-fault");
    else if (fault !== undefined && at > fault) classes.push("unread");
    if (isByte && at === this.cursor) classes.push("cursor");
    return classes.join(" ");
  }

  drawLine(index) {
    const start = this.from + index * this.perLine;
    const end = Math.min(start + this.perLine, this.end);
    const cells = [make("span", { class: "offset", "aria-hidden": "true" }, start.toString(16).padStart(this.digits, "0"))];
    const letters = make("span", { class: "letters", "aria-hidden": "true" });
    for (let at = start; at < end; at++) {
      cells.push(this.marked(this.drawByte(at), at));
      letters.append(this.marked(make("span", { "data-at": at }, this.letter(at)), at));
    }
    for (let at = end; at < start + this.perLine; at++) cells.push(make("span", { class: at - start === 7 ? "byte middle" : "byte" }));
    return make("div", { class: "line", role: "row", "aria-rowindex": index + 1 }, ...cells, letters);
  }

  marked(cell, at) {
    cell.className = this.classOf(cell, at);
    return cell;
  }

  drawByte(at) {
    const digits = this.bytes[at].toString(16).padStart(2, "0");
    const label = `${digits} at ${at}${at === this.marks.fault ? ", fault" : ""}`;
    return make("span", { id: `byte-${at}`, role: "gridcell", "data-at": at, "aria-label": label,
      title: at === this.marks.fault ? this.marks.faultName : undefined }, digits);
  }

  letter(at) {
    const byte = this.bytes[at];
    return byte >= 32 && byte < 127 ? String.fromCharCode(byte) : "·";
  }
}
