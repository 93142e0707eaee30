// The tree of what was read: messages, their parts, documents and elements, each with the place of its bytes.
//
// A node's children are read when it is opened, a few thousand at a time. Each element comes from a step of a proved walk.
"use strict";

const BATCH = 2_000; // elements that are read at once
const SMALL = 2_000; // the bytes of a document that is open from the start

const quoted = (text) => JSON.stringify(text);
const clipped = (text, most = 160) => (text.length > most ? `${text.slice(0, most)}…` : text);

// ---- values

const asSigned = (bits) => BigInt.asIntN(64, bits);

function asDouble(bits) {
  const view = new DataView(new ArrayBuffer(8));
  view.setBigUint64(0, bits);
  const number = view.getFloat64(0);
  return Object.is(number, -0) ? "-0" : String(number);
}

function asDate(bits) {
  const date = new Date(Number(asSigned(bits)));
  return Number.isNaN(date.getTime()) ? "" : `${date.toISOString()}`;
}

// Returns what the dump writes behind an element's kind; and behind a double's digits and a datetime's milliseconds what they mean.
function valueText(proved, element) {
  const kind = KINDS[element.kind];
  const { text, fault } = proved.valueText(element);
  if (fault) return fault.number === 254 ? "more than 64 KiB" : `(${namedFault(DOCUMENT_FAULTS, fault)[0]})`;
  const value = text.slice(kind.length + 2);
  switch (kind) {
    case "double": return `${value} = ${asDouble(element.bits)}`;
    case "datetime": return `${value} = ${asDate(element.bits)}`;
    case "document": case "array": return `${value} bytes`;
    default: return value;
  }
}

// ---- nodes

class TreeNode {
  constructor(parent, place, shown) {
    this.parent = parent;
    this.start = place.start;
    this.end = place.end;
    this.level = parent ? parent.level + 1 : 0;
    this.open = false;
    Object.assign(this, { name: "", kind: "", text: "", ...shown });
  }

  // What is shown behind the kind; of an element it is read when it is asked for.
  get value() {
    return this.element ? valueText(this.proved, this.element) : this.text;
  }

  get isContainer() {
    return false;
  }

  // The nodes inside that were read so far.
  get children() {
    return [];
  }

  get isWhole() {
    return true;
  }

  readMore() {}
}

// A node whose children are known.
class Group extends TreeNode {
  constructor(parent, place, shown, fill) {
    super(parent, place, shown);
    this.inside = fill(this);
    this.open = true;
  }

  get isContainer() {
    return this.inside.length > 0;
  }

  get children() {
    return this.inside;
  }
}

// A document, an array or a scope, whose elements a walk gives.
class Container extends TreeNode {
  constructor(proved, parent, place, shown, walk) {
    super(parent, place, shown);
    this.proved = proved;
    this.walk = walk;
    this.inside = [];
    this.ended = !walk;
  }

  get isContainer() {
    return Boolean(this.walk);
  }

  get children() {
    if (!this.inside.length && !this.ended) this.readMore();
    return this.inside;
  }

  get isWhole() {
    return this.ended;
  }

  // Reads the next elements.
  readMore(most = BATCH) {
    for (let count = 0; count < most && !this.ended; count++) {
      const element = this.proved.step(this.walk);
      if (!element || element.fault) {
        this.ended = true;
        this.fault = element?.fault;
        return;
      }
      this.inside.push(elementNode(this.proved, this, element));
    }
  }
}

function elementNode(proved, parent, element) {
  const { bytes } = proved;
  const shown = {
    element,
    name: utf8.decode(bytes.subarray(element.name.start, element.name.end)),
    kind: KINDS[element.kind] ?? `kind ${element.kind}`,
    valueStart: element.name.end + 1,
  };
  const node = new Container(proved, parent, element, shown, element.inner);
  node.open = node.isContainer && node.end - node.start < SMALL;
  return node;
}

// The document of these bytes. Where its length or its last byte is at fault, it has no elements.
function documentNode(proved, parent, place, shown) {
  const walk = proved.walk(place.start, place.end);
  const node = new Container(proved, parent, place, { kind: "document", text: `${place.end - place.start} bytes`, isDocument: true, ...shown },
    walk.fault ? undefined : walk);
  node.open = true;
  return node;
}

// ---- messages

// The numbers at the front of a message, each of four bytes.
const NUMBERS = [["messageLength", "length"], ["requestID", "id"], ["responseTo", "responseTo"], ["opCode", "opcode"], ["flagBits", "flagBits"]];

function flagWords({ flagBits, moreToCome, exhaustAllowed }) {
  const names = [...(moreToCome ? ["moreToCome"] : []), ...(exhaustAllowed ? ["exhaustAllowed"] : [])];
  return `${flagBits.toString(2).padStart(1, "0")}${names.length ? ` ${names.join(", ")}` : ""}`;
}

function headerNodes(proved, message, place, parts) {
  const numbers = proved.frontNumbers(place.start, place.end);
  return NUMBERS.map(([name, key], index) => {
    const at = { start: place.start + 4 * index, end: Math.min(place.start + 4 * index + 4, place.end) };
    const text = key === "flagBits" ? flagWords({ ...parts, flagBits: numbers.flagBits }) : String(numbers[key]);
    return new TreeNode(message, at, { name, kind: key === "flagBits" ? "uint32" : "int32", text: index < numbers.count ? text : "missing" });
  }).filter(({ start }) => start < place.end);
}

function sequenceNodes(proved, sequence, { documents }) {
  const nodes = [];
  let at = documents.start;
  while (at < documents.end) {
    const found = proved.nextDocument(at, documents.end);
    const end = found?.end ?? documents.end;
    nodes.push(documentNode(proved, sequence, { start: at, end }, { name: String(nodes.length) }));
    at = end;
  }
  return nodes;
}

function sectionNode(proved, message, at, section) {
  const place = { start: at, end: section.next };
  if (section.kind === "body") {
    return new Group(message, place, { name: "body", kind: "section 0", text: `${section.next - at} bytes` },
      (group) => [documentNode(proved, group, section.documents, { name: "document" })]);
  }
  const name = utf8.decode(proved.bytes.subarray(section.identifier.start, section.identifier.end));
  return new Group(message, place, { name, kind: "section 1, sequence", text: `${section.next - at} bytes` },
    (group) => sequenceNodes(proved, group, section));
}

function sectionNodes(proved, message, place) {
  const nodes = [];
  let at = place.start + 20;
  while (at < place.end) {
    const section = proved.section(place.start, place.end, at);
    if (section.kind === "none" || section.kind === "end") break;
    nodes.push(sectionNode(proved, message, at, section));
    at = section.next;
  }
  return nodes;
}

function messageNode(proved, place, parts) {
  return new Group(undefined, place, { name: "message", kind: "OP_MSG", text: `${place.end - place.start} bytes` },
    (message) => [...headerNodes(proved, message, place, parts), ...sectionNodes(proved, message, place)]);
}

// ---- finding

// Returns the innermost node that has the byte, among those inside one that were read or can be within a few batches.
function innermost(node, offset) {
  let found = node;
  for (;;) {
    const inner = childAt(found, offset);
    if (!inner) return found;
    found = inner;
  }
}

function childAt(node, offset) {
  for (let tries = 0; tries < 10 && !node.isWhole && (node.children.at(-1)?.end ?? 0) <= offset; tries++) node.readMore();
  const { children } = node;
  let low = 0;
  let high = children.length;
  while (low < high) {
    const middle = (low + high) >> 1;
    if (children[middle].end <= offset) low = middle + 1;
    else high = middle;
  }
  return low < children.length && children[low].start <= offset ? children[low] : undefined;
}

// Returns the documents that a document or a message has: itself, or those of its sections.
function documentsIn(node) {
  return node.isDocument ? [node] : node.children.flatMap(documentsIn);
}

// Returns the names from the outermost node to this one.
function pathOf(node) {
  const names = [];
  for (let at = node; at.parent; at = at.parent) names.unshift(at.name);
  return names;
}
