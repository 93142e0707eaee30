// The inspector: reads what is given, and shows its bytes, its tree, its texts and its first fault.
"use strict";

const PER_PAGE = 100; // items of the list that are shown at once
const MOST_TYPED = 40_000; // bytes that the field shows as digits
const MOST_SHARED = 24_000; // bytes that go into an address
const TEXT_FORMS = ["relaxed", "canonical", "dump"];

const inWords = (count, one, many = `${one}s`) => `${count.toLocaleString("en")} ${count === 1 ? one : many}`;
const hexOffset = (offset) => `${offset.toLocaleString("en")} (0x${offset.toString(16)})`;

class Inspector {
  constructor(proved) {
    this.proved = proved;
    const panes = { onHover: (what) => this.hover(what), onChoose: (what) => this.choose(what) };
    this.bytesPane = new BytesPane(byId("bytes"), panes);
    this.tree = new TreePane(byId("tree"), panes);
    this.reading = "auto";
    this.view = "tree";
    this.given = 0; // how often something was given to read
    this.listen();
    this.open(new Uint8Array());
  }

  listen() {
    byId("source").addEventListener("input", () => this.readTyped());
    byId("file").addEventListener("change", ({ target }) => {
      this.readFile(target.files[0]);
      target.value = ""; // so that the same file can be opened again
    });
    byId("example").addEventListener("change", (event) => this.typeExample(event.target.value));
    byId("share").addEventListener("click", () => this.share());
    byId("reading").addEventListener("change", (event) => {
      this.reading = event.target.value;
      this.open(this.bytes);
    });
    byId("items-back").addEventListener("click", () => this.listItems(this.page - 1));
    byId("items-on").addEventListener("click", () => this.listItems(this.page + 1));
    for (const view of ["tree", ...TEXT_FORMS]) byId(`view-${view}`).addEventListener("click", () => this.showView(view));
  }

  // ---- what is given

  type(text) {
    byId("source").value = text;
    this.readTyped();
  }

  typeExample(text) {
    this.reading = "auto";
    document.querySelector("#reading [value=auto]").checked = true;
    this.type(text);
  }

  readTyped() {
    this.given++;
    const read = readSource(byId("source").value);
    if (read.problem) this.tellProblem(read.problem);
    else this.open(read.bytes);
  }

  // Opens the bytes that an address shares.
  openShared(letters) {
    try {
      this.type(hexOf(bytesOfBase64(letters)));
    } catch {
      this.given++;
      this.tellProblem("The address shares no bytes that can be read.");
    }
  }

  async readFile(file) {
    if (!file) return;
    // What is given while the file is read stays.
    const given = ++this.given;
    try {
      const bytes = new Uint8Array(await file.arrayBuffer());
      if (given !== this.given) return;
      byId("source").value = bytes.length <= MOST_TYPED ? hexOf(bytes) : "";
      byId("source").placeholder = `${file.name}, ${inWords(bytes.length, "byte")}`;
      this.open(bytes);
    } catch (problem) {
      if (given === this.given) this.tellProblem(`${file.name} can't be read: ${problem.message}`);
    }
  }

  async share() {
    if (this.bytes.length > MOST_SHARED) {
      byId("shared").textContent = `Only ${inWords(MOST_SHARED, "byte")} go into an address.`;
      return;
    }
    history.replaceState(null, "", `#bytes=${asFragment(this.bytes)}`);
    byId("shared").textContent = "The address has these bytes.";
    const isCopied = await navigator.clipboard?.writeText(location.href).then(() => true, () => false);
    if (isCopied) byId("shared").textContent = "The address has these bytes, and is copied.";
  }

  tellProblem(problem) {
    this.open(new Uint8Array());
    this.tell("faulty", make("strong", {}, problem));
  }

  // ---- what the bytes are

  // Shows these bytes: one document or message, or a list of them.
  open(bytes) {
    this.bytes = bytes;
    byId("shared").textContent = "";
    this.proved.lend(bytes);
    this.areMessages = this.reading === "auto" ? this.looksLikeMessage() : this.reading === "messages";
    this.items = this.areMessages ? this.splitMessages() : this.splitDocuments();
    byId("items").hidden = this.items.length < 2;
    byId("panes").hidden = bytes.length === 0;
    byId("chosen").hidden = bytes.length === 0;
    this.listItems(0);
    this.openItem(0);
    this.tellWhole();
  }

  // Returns whether a message stands in front, or no document does and the bytes have a header's opCode.
  looksLikeMessage() {
    const { state, fault } = this.proved.messageFront(0, this.bytes.length);
    if (state === "whole") return true;
    if (this.bytes.length < 16 || this.proved.nextDocument(0, this.bytes.length)) return false;
    return state === "open" || !["Length", "Opcode"].includes(namedFault(MESSAGE_FAULTS, fault)[0]);
  }

  // Returns the places of the documents, by their lengths and last bytes; the last one may be no document.
  splitDocuments() {
    const items = [];
    const all = this.bytes.length;
    for (let at = 0; at < all;) {
      const end = this.proved.nextDocument(at, all)?.end ?? all;
      items.push({ start: at, end });
      at = end;
    }
    return items;
  }

  // Returns the places of the messages; behind one with a fault, no message is looked for.
  splitMessages() {
    const items = [];
    const all = this.bytes.length;
    for (let at = 0; at < all;) {
      const front = this.proved.messageFront(at, all);
      items.push({ start: at, end: front.state === "whole" ? at + front.length : this.announcedEnd(at, all), front });
      at = front.state === "whole" ? at + front.length : all;
    }
    return items;
  }

  // Returns where a message at fault is to end: where its header says, or with the bytes.
  announcedEnd(at, all) {
    const announced = this.proved.frontNumbers(at, all).length;
    return announced >= 20 && announced <= all - at ? at + announced : all;
  }

  // Returns the first fault of an item, with its names: that of a message, and that of the document inside it.
  faultOf(item) {
    if (!this.areMessages) {
      const { fault } = this.proved.checkDocuments(item.start, item.end);
      return fault && { ...fault, table: DOCUMENT_FAULTS };
    }
    if (item.front.state === "whole") return undefined;
    if (item.front.state === "open") return { number: 14, offset: item.start, table: MESSAGE_FAULTS };
    const { fault, inside } = item.front;
    return inside ? { ...inside, table: DOCUMENT_FAULTS, around: fault } : { ...fault, table: MESSAGE_FAULTS };
  }

  // Returns the first fault of all, and how many whole items stand before it.
  wholeAndFault() {
    if (this.areMessages) {
      const faulty = this.items.findIndex(({ front }) => front.state !== "whole");
      return faulty < 0 ? { count: this.items.length } : { count: faulty, fault: this.faultOf(this.items[faulty]), faulty };
    }
    const { count, fault } = this.proved.checkDocuments(0, this.bytes.length);
    return { count, fault: fault && { ...fault, table: DOCUMENT_FAULTS }, faulty: count };
  }

  // ---- what is told

  tell(kind, ...parts) {
    byId("verdict").className = `verdict ${kind}`;
    byId("verdict").replaceChildren(...parts);
    byId("verdict").dataset.fault = "";
  }

  tellWhole() {
    if (this.bytes.length === 0) {
      this.tell("", "Paste a document or a message, or drop a file of them. Nothing leaves this page.");
      return;
    }
    const { count, fault, faulty } = this.wholeAndFault();
    const what = inWords(count, this.areMessages ? "message" : "document");
    if (!fault) {
      this.tell("good", make("strong", {}, what), `, ${inWords(this.bytes.length, "byte")}${this.formWords()}`);
      return;
    }
    const [name, rule] = namedFault(fault.table, fault);
    const around = fault.around ? `, in the document at ${fault.around.offset} (fault 7 Document of the message)` : "";
    this.tell("faulty", make("strong", {}, `Fault ${fault.number} ${name} at offset ${hexOffset(fault.offset)}`), `${around}. `, rule,
      this.items.length > 1 ? ` Before it: ${what}.` : "",
      make("button", { type: "button", id: "to-fault", on: { click: () => this.goToFault(faulty, fault) } }, "Show it"));
    byId("verdict").dataset.fault = `${fault.number} ${name} at ${fault.offset}`;
  }

  // Says whether one document is canonical, or all documents of one message.
  formWords() {
    if (this.items.length !== 1) return "";
    const other = this.misnamedIn(this.tree.root);
    return other ? `, ${this.formOf(other.node)}` : ", canonical";
  }

  // Returns the first document of a document or a message that isn't canonical, and the offset from which on it isn't.
  misnamedIn(root) {
    for (const node of documentsIn(root)) {
      const { fault, canonical, offset } = this.proved.form(node.start, node.end);
      if (!fault && !canonical) return { node, offset };
    }
    return undefined;
  }

  // Says whether a document is canonical, and where not.
  formOf(node) {
    const { fault, canonical, offset } = this.proved.form(node.start, node.end);
    if (fault) return "no document";
    if (canonical) return "canonical";
    const element = innermost(node, offset);
    const place = element.start === offset ? `from ${quoted(element.name)} at offset ${hexOffset(offset)} on` : `from offset ${hexOffset(offset)} on`;
    const names = element.start === offset ? `the names of ${pathOf(element.parent).join(".")}` : "the names of an array";
    return `not canonical: ${names}, ${place}, aren't "0", "1" and so on`;
  }

  goToFault(item, fault) {
    if (this.items.length > 1) {
      this.listItems(Math.floor(item / PER_PAGE));
      this.openItem(item);
    }
    this.showView("tree");
    this.bytesPane.putCursor(Math.min(fault.offset, this.bytes.length - 1));
    byId("bytes").focus();
  }

  // ---- the list

  listItems(page) {
    const pages = Math.max(1, Math.ceil(this.items.length / PER_PAGE));
    this.page = Math.min(Math.max(page, 0), pages - 1);
    const first = this.page * PER_PAGE;
    const shown = this.items.slice(first, first + PER_PAGE);
    byId("items-count").textContent = inWords(this.items.length, this.areMessages ? "message" : "document");
    byId("items-page").textContent = `page ${this.page + 1} of ${pages}`;
    byId("items-pages").hidden = pages === 1;
    byId("items-back").disabled = this.page === 0;
    byId("items-on").disabled = this.page === pages - 1;
    byId("items-list").replaceChildren(...shown.map((item, k) => this.itemLine(item, first + k)));
  }

  itemLine(item, index) {
    const fault = this.faultOf(item);
    const other = fault ? undefined : this.misnamedIn(this.rootOf(item));
    const state = fault ? make("span", { class: "bad" }, `${namedFault(fault.table, fault)[0]} at ${fault.offset}`)
      : other ? make("span", {}, `not canonical at ${other.offset}`) : "";
    return make("li", {}, make("button", { type: "button", "data-item": index, "aria-current": String(index === this.item),
      on: { click: () => this.openItem(index) } },
      make("span", {}, `#${index}`), make("span", {}, `at ${item.start}`), make("span", {}, inWords(item.end - item.start, "byte")), state));
  }

  rootOf(item) {
    return this.areMessages
      ? messageNode(this.proved, item, this.proved.messageParts(item.start, item.end))
      : documentNode(this.proved, undefined, item);
  }

  // Shows one item of the list.
  openItem(index) {
    const item = this.items[index];
    this.item = index;
    for (const line of document.querySelectorAll("#items-list [data-item]")) {
      line.setAttribute("aria-current", String(Number(line.dataset.item) === index));
    }
    if (!item) return;
    const root = this.rootOf(item);
    const fault = this.faultOf(item);
    this.fault = fault;
    this.tree.show(root, fault && { offset: fault.offset, text: this.faultLine(fault) });
    this.bytesPane.show(this.bytes, item);
    this.showView(this.view);
    this.choose(root, false);
    this.bytesPane.mark(this.faultMarks(fault, item));
    if (fault) this.bytesPane.reveal({ start: fault.offset });
  }

  faultLine(fault) {
    return `${namedFault(fault.table, fault)[0]} at offset ${fault.offset}`;
  }

  // Marks the byte of a fault, and what is at fault up to its end.
  faultMarks(fault, item) {
    if (!fault) return {};
    return { fault: fault.offset, faultName: this.faultLine(fault), inFault: { start: fault.offset, end: this.faultEnd(fault, item) } };
  }

  faultEnd({ number, offset, table, around }, { start, end }) {
    if (table === DOCUMENT_FAULTS) return this.proved.spanAt(around ? around.offset : start, end, offset).end;
    return MESSAGE_FAULTS[number - 1][0] === "EndedInside" ? end : this.proved.messageSpan(start, end, offset).end;
  }

  // ---- what is lit and chosen

  hover(what) {
    const node = typeof what === "number" ? innermost(this.tree.root, what) : what;
    const shown = node ?? this.tree.chosen;
    if (!shown || shown === this.shown) return;
    this.shown = shown;
    this.light(shown);
    this.tree.markPointed(node);
    this.describe(shown);
  }

  // Lights the bytes of a node, and those of its value more; of the whole none.
  light(node) {
    const { valueStart, end } = node;
    this.bytesPane.mark({ lit: node.parent && node, value: valueStart === undefined ? undefined : { start: valueStart, end } });
  }

  // Chooses a node, or the innermost one that has a byte.
  choose(what, focused = true) {
    const ofByte = typeof what === "number";
    const node = ofByte ? innermost(this.tree.root, what) : what;
    this.tree.choose(node);
    this.shown = node;
    if (ofByte || focused) this.bytesPane.putCursor(ofByte ? what : node.start);
    this.light(node);
    this.describe(node);
  }

  describe(node) {
    const byte = this.bytesPane.cursor;
    const facts = [
      ["name", pathOf(node).join(".") || (this.areMessages ? "message" : "document")], ["kind", node.kind],
      ["offset", hexOffset(node.start)], ["length", inWords(node.end - node.start, "byte")],
      ...(node.valueStart === undefined ? [] : [["value at", hexOffset(node.valueStart)]]),
      ["byte", this.bytes.length ? `${this.bytes[byte]?.toString(16).padStart(2, "0")} at ${byte}` : ""],
      ["value", clipped(node.value, 4_000)],
      ...(node.isDocument ? [["form", this.formOf(node)]] : []),
    ];
    byId("facts").replaceChildren(...facts.map(([term, words]) => make("div", {}, make("dt", {}, term), make("dd", {}, words))));
  }

  // ---- texts

  showView(view) {
    this.view = view;
    for (const name of ["tree", ...TEXT_FORMS]) byId(`view-${name}`).setAttribute("aria-selected", String(name === view));
    byId("tree").hidden = view !== "tree";
    byId("text").hidden = view === "tree";
    if (view === "tree") this.tree.lines.drawNow();
    else byId("text").textContent = this.textOf(view);
  }

  // Returns the text of the item's document, or of each document of a message.
  textOf(form) {
    const item = this.items[this.item];
    if (!item) return "";
    if (!this.areMessages) return this.textAt(form, item);
    return documentsIn(this.tree.root).map((node) => this.textAt(form, node)).join(form === "dump" ? "" : "\n");
  }

  textAt(form, { start, end }) {
    const { text, fault } = this.proved.text(form, start, end);
    if (text !== undefined) return text;
    const command = form === "dump" ? "dump" : "json";
    if (fault.number === 254) return `This text is longer than ${inWords(ROOM, "byte")}: \`bsonwire ${command} FILE\` writes it.\n`;
    return `${namedFault(DOCUMENT_FAULTS, fault)[0]} at offset ${fault.offset}: only a document has a text.\n`;
  }
}
