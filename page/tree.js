// The pane of the tree: a line for each node whose parents are open.
"use strict";

// Returns the name that a line shows: an element's own, which may be empty, and that of the whole.
const nameOf = ({ parent, name }) => (parent ? name : name || "document");

class TreePane {
  constructor(scroll, { onHover, onChoose }) {
    this.scroll = scroll;
    this.lines = new Lines(scroll, (index) => this.drawLine(index));
    this.onChoose = onChoose;
    this.clear();
    scroll.addEventListener("pointermove", ({ target }) => this.hover(target, onHover));
    scroll.addEventListener("pointerleave", () => {
      this.hovered = undefined;
      onHover(undefined);
    });
    scroll.addEventListener("click", (event) => this.press(event));
    scroll.addEventListener("keydown", (event) => {
      if (!hasModifier(event) && this.move(event.key)) event.preventDefault();
    });
  }

  clear() {
    this.root = undefined;
    this.rows = [];
    this.chosen = undefined;
  }

  // Shows the nodes below a root, and the fault where the walk came upon it, or else behind them all.
  show(root, fault) {
    Object.assign(this, { root, fault, chosen: undefined });
    this.scroll.scrollTop = 0;
    this.list();
  }

  // Lists the lines: nodes, a line that reads more, and one for the fault.
  list() {
    this.rows = [];
    const add = (node) => {
      this.rows.push({ node });
      if (!node.open) return;
      for (const child of node.children) add(child);
      if (!node.isWhole) this.rows.push({ more: node });
      if (node.fault?.offset === this.fault?.offset) this.addFault(node.level + 1);
    };
    if (this.root) add(this.root);
    if (this.fault && !this.rows.some(({ fault }) => fault)) this.addFault(1);
    this.lines.setCount(this.rows.length);
  }

  // Marks the line of the node whose bytes are pointed at.
  markPointed(node) {
    for (const line of this.scroll.querySelectorAll("[data-row]")) {
      line.classList.toggle("pointed", this.rows[Number(line.dataset.row)]?.node === node);
    }
  }

  rowOf(target) {
    const line = target.closest("[data-row]");
    return line && this.rows[Number(line.dataset.row)];
  }

  addFault(level) {
    if (this.fault) this.rows.push({ fault: `${"  ".repeat(level)}✗ ${this.fault.text}` });
  }

  hover(target, onHover) {
    const node = this.rowOf(target)?.node;
    if (node && node !== this.hovered) onHover(node);
    this.hovered = node;
  }

  press({ target }) {
    const row = this.rowOf(target);
    if (row?.more) this.readMore(row.more);
    else if (row?.node && target.closest(".twist")) this.turn(row.node);
    else if (row?.node) this.onChoose(row.node);
  }

  readMore(node) {
    node.readMore();
    this.list();
  }

  // Opens a node, or closes it.
  turn(node, open = !node.open) {
    node.open = open;
    this.list();
  }

  // Chooses a node, and opens all around it.
  choose(node) {
    this.chosen = node;
    for (let at = node.parent; at; at = at.parent) at.open = true;
    this.list();
    const index = this.rows.findIndex((row) => row.node === node);
    this.scroll.setAttribute("aria-activedescendant", `node-${index}`);
    this.lines.reveal(index);
  }

  // Moves by a key, and tells whether the key is one of the tree's.
  move(key) {
    const index = this.rows.findIndex(({ node }) => node === this.chosen);
    const { chosen } = this;
    if (key === "ArrowRight" && chosen?.isContainer && !chosen.open) this.turn(chosen, true);
    else if (key === "ArrowLeft" && chosen?.isContainer && chosen.open) this.turn(chosen, false);
    else if (key === "ArrowLeft") this.chooseRow(this.rows.findIndex(({ node }) => node && node === chosen?.parent));
    else if (key === "ArrowDown" || key === "ArrowRight") this.chooseRow(index + 1, 1);
    else if (key === "ArrowUp") this.chooseRow(index - 1, -1);
    else if (key === "Home") this.chooseRow(0);
    else if (key === "End") this.chooseRow(this.rows.findLastIndex(({ node }) => node));
    else return false;
    return true;
  }

  // Chooses the node of a line, or reads more there. A key passes over the line of the fault, the way it goes.
  chooseRow(index, way = 0) {
    const row = this.rows[index];
    if (row?.more) {
      this.readMore(row.more);
      this.chooseRow(index);
    } else if (row?.fault && way !== 0) this.chooseRow(index + way, way);
    else if (row?.node) this.onChoose(row.node);
  }

  drawLine(index) {
    const row = this.rows[index];
    if (row.fault) return make("div", { class: "line node at-fault", role: "note" }, row.fault);
    if (row.more) return this.drawMore(row.more, index);
    const { node } = row;
    const twist = node.isContainer ? (node.open ? "▾" : "▸") : "";
    const indent = "  ".repeat(node.level);
    const parts = [
      make("span", { class: "name" }, nameOf(node)),
      make("span", { class: "kind" }, node.kind),
      make("span", { class: node.isContainer ? "part" : "value" }, clipped(node.value, 120)),
    ];
    return make("div", {
      class: node === this.chosen ? "line node chosen" : "line node", id: `node-${index}`, role: "treeitem", "data-row": index,
      "aria-level": node.level + 1, ...this.placeAmong(node), "aria-expanded": node.isContainer ? String(node.open) : undefined,
      "aria-selected": String(node === this.chosen), "aria-label": `${nameOf(node)}, ${node.kind} ${node.value}`,
    }, indent, make("span", { class: "twist", "aria-hidden": "true" }, twist), ...parts);
  }

  // Says which of its siblings this line is, for screen readers: only the lines in sight stand in the page.
  placeAmong(node) {
    const { parent } = node;
    if (!parent) return { "aria-setsize": 1, "aria-posinset": 1 };
    return { "aria-setsize": parent.isWhole ? parent.children.length : -1, "aria-posinset": parent.children.indexOf(node) + 1 };
  }

  drawMore(node, index) {
    const indent = "  ".repeat(node.level + 1);
    return make("div", { class: "line node", role: "treeitem", "data-row": index, "aria-level": node.level + 2 }, indent, make("span", { class: "twist" }, "…"),
      make("span", { class: "part" }, `read more than ${node.children.length.toLocaleString("en")} elements`));
  }
}
