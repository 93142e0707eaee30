// A list of lines, of which only those in sight stand in the page.
"use strict";

const MOST_HEIGHT = 8_000_000; // pixels that a browser scrolls over

class Lines {
  // `draw` makes the element of a line by its index.
  constructor(scroll, draw) {
    this.scroll = scroll;
    this.draw = draw;
    this.whole = make("div", { class: "whole", role: "presentation" });
    scroll.replaceChildren(this.whole);
    this.count = 0;
    scroll.addEventListener("scroll", () => this.drawSoon());
    new ResizeObserver(() => this.drawSoon()).observe(scroll);
  }

  get rowHeight() {
    return 22;
  }

  get total() {
    return this.count * this.rowHeight;
  }

  // The height that scrolls: less than that of all lines, where a browser can't hold that.
  get height() {
    return Math.min(this.total, MOST_HEIGHT);
  }

  // How many pixels of lines one pixel of scrolling passes.
  get factor() {
    const inSight = this.scroll.clientHeight;
    return this.height > inSight ? (this.total - inSight) / (this.height - inSight) : 1;
  }

  setCount(count) {
    this.count = count;
    this.whole.style.height = `${this.height}px`;
    this.drawNow();
  }

  drawSoon() {
    this.soon ??= requestAnimationFrame(() => this.drawNow());
  }

  drawNow() {
    cancelAnimationFrame(this.soon);
    this.soon = undefined;
    const top = this.scroll.scrollTop;
    const passed = top * this.factor;
    const first = Math.max(0, Math.floor(passed / this.rowHeight) - 4);
    const last = Math.min(this.count, Math.ceil((passed + this.scroll.clientHeight) / this.rowHeight) + 4);
    const lines = [];
    for (let index = first; index < last; index++) {
      const line = this.draw(index);
      line.style.top = `${index * this.rowHeight - passed + top}px`;
      lines.push(line);
    }
    this.whole.replaceChildren(...lines);
  }

  // Scrolls as little as brings the line into sight.
  reveal(index) {
    const from = index * this.rowHeight;
    const room = this.scroll.clientHeight - this.rowHeight;
    const passed = this.scroll.scrollTop * this.factor;
    if (from < passed) this.scroll.scrollTop = from / this.factor;
    else if (from > passed + room) this.scroll.scrollTop = (from - room) / this.factor;
    this.drawNow();
  }
}
