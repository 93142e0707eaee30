// Calls the proved module. Each method hands bytes to one export, and reads the numbers that it answers.
//
// An export that returns a struct takes first the place where it goes. A slice is its place and its length, and a `usize` a BigInt.
// Nothing in the module takes memory, so what stands behind `__heap_base` is ours: the structs, then the bytes, then room for texts.
"use strict";

const LIMIT = 48_000_000; // the greatest limit on a message's length
const ROOM = 65_536; // of a text, as many bytes as a short one has
const MEMORY_PAGE = 65_536;
const PLACES = { result: 0, iter: 128, element: 192, left: 288, first: 304, bytes: 512 };

class Proved {
  static async load(base64) {
    const { instance } = await WebAssembly.instantiate(bytesOfBase64(base64), {});
    return new Proved(instance.exports);
  }

  constructor(exports) {
    this.exports = exports;
    this.base = Math.ceil(Number(exports.__heap_base.value) / 16) * 16;
    this.lend(new Uint8Array());
  }

  // Puts the bytes into the module's memory, which grows for them.
  lend(bytes) {
    const { memory } = this.exports;
    const from = this.base + PLACES.bytes;
    const lacking = from + bytes.length + ROOM - memory.buffer.byteLength;
    if (lacking > 0) memory.grow(BigInt(Math.ceil(lacking / MEMORY_PAGE)));
    this.view = new DataView(memory.buffer);
    this.bytes = new Uint8Array(memory.buffer, from, bytes.length);
    this.bytes.set(bytes);
  }

  place(name) {
    return BigInt(this.base + PLACES[name]);
  }

  // Returns the two arguments of a slice: the lent bytes from `start` to `end`.
  slice(start, end) {
    return [BigInt(this.base + PLACES.bytes + start), BigInt(end - start)];
  }

  word(at) {
    return this.view.getUint32(this.base + at, true);
  }

  number(at) {
    return Number(this.view.getBigUint64(this.base + at, true));
  }

  // Reads a fault, whose offset is counted from `start`; or undefined, if there is none.
  fault(at, start) {
    const number = this.word(at);
    return number ? { number, offset: start + this.number(at + 8) } : undefined;
  }

  // Reads a view of bytes that begin at `start`.
  span(at, start) {
    const offset = start + this.number(at);
    return { start: offset, end: offset + this.number(at + 8) };
  }

  // ---- documents

  // Returns whether a document is in canonical form, and the offset of the first element whose name isn't its index; or its fault.
  form(start, end) {
    this.exports.page_form(this.place("result"), ...this.slice(start, end));
    const canonical = Boolean(this.view.getUint8(this.base + 16));
    return { fault: this.fault(0, start), canonical, offset: start + this.number(24) };
  }

  // Returns the place of the innermost element that has a byte of the document that begins at `start`, or of what is at fault there.
  spanAt(start, end, offset) {
    this.exports.page_span(this.place("result"), ...this.slice(start, end), BigInt(offset - start));
    return this.span(0, start);
  }

  // Returns how many whole documents stand one after another, how many bytes they take, and the first fault behind them.
  checkDocuments(start, end) {
    this.exports.page_check_documents(this.place("result"), ...this.slice(start, end));
    return { count: this.number(0), bytesRead: this.number(8), fault: this.fault(16, start) };
  }

  // Returns the place of the document that begins at `start`, if one does, by its length and its last byte.
  nextDocument(start, end) {
    const left = this.base + PLACES.left;
    this.view.setBigUint64(left, BigInt(start), true);
    this.view.setBigUint64(left + 8, BigInt(end - start), true);
    this.exports.page_next_document(...this.slice(0, end), this.place("left"), this.place("first"));
    const first = this.span(PLACES.first, 0);
    return first.end > first.start ? first : undefined;
  }

  // Writes a text of a document: `dump`, `canonical` or `relaxed`.
  text(form, start, end) {
    const slice = this.slice(start, end);
    if (form === "dump") this.exports.page_dump(this.place("result"), ...slice, ...this.room);
    else this.exports.page_json(this.place("result"), ...slice, Number(form === "relaxed"), ...this.room);
    return this.written(start);
  }

  get room() {
    return [BigInt(this.base + PLACES.bytes + this.bytes.length), BigInt(ROOM)];
  }

  // Returns the text that was written, or the fault for which there is none.
  written(start) {
    const fault = this.fault(0, start);
    return fault ? { fault } : { text: utf8.decode(new Uint8Array(this.view.buffer, Number(this.room[0]), this.number(16))) };
  }

  // Writes the value of an element that a walk went over: a space, the word of its kind, and the value.
  valueText({ walk, start }) {
    this.writeIter({ ...walk.iter, at: start - walk.origin });
    this.exports.page_value(this.place("result"), ...this.slice(walk.origin, walk.limit), this.place("iter"), ...this.room);
    return this.written(walk.origin);
  }

  // ---- walks

  // Begins a walk over a document. Its offsets are counted from `origin`, the document's first byte.
  walk(start, end) {
    this.exports.page_first(this.place("result"), ...this.slice(start, end));
    return { fault: this.fault(0, start), origin: start, limit: end, iter: this.readIter(16) };
  }

  readIter(at) {
    return { start: this.number(at), at: this.number(at + 8), end: this.number(at + 16), depth: this.word(at + 24) };
  }

  writeIter({ start, at, end, depth }) {
    const place = this.base + PLACES.iter;
    this.view.setBigUint64(place, BigInt(start), true);
    this.view.setBigUint64(place + 8, BigInt(at), true);
    this.view.setBigUint64(place + 16, BigInt(end), true);
    this.view.setUint32(place + 24, depth, true);
  }

  // Moves a walk on, and returns the element that it went over, or a fault, or undefined at the end.
  step(walk) {
    const at = walk.iter.at;
    this.writeIter(walk.iter);
    this.exports.page_next(...this.slice(walk.origin, walk.limit), this.place("iter"), this.place("element"));
    walk.iter.at = this.number(PLACES.iter + 8);
    const element = this.readElement(walk.origin);
    if (element.fault || element.kind === 0) return element.fault ? element : undefined;
    return { ...element, walk, start: walk.origin + at, end: walk.origin + walk.iter.at, inner: this.enter(walk) };
  }

  readElement(origin) {
    const at = PLACES.element;
    return {
      fault: this.fault(at, origin),
      kind: this.word(at + 16),
      subtype: this.word(at + 20),
      bits: this.view.getBigUint64(this.base + at + 24, true),
      name: this.span(at + 32, origin),
      text: this.span(at + 48, origin),
      bytes: this.span(at + 64, origin),
    };
  }

  // Returns a walk over the document that the element just read holds, or undefined if it holds none.
  enter(walk) {
    this.exports.page_enter(this.place("result"), this.place("iter"), this.place("element"));
    const iter = this.readIter(0);
    return iter.at <= iter.end ? { origin: walk.origin, limit: walk.limit, iter } : undefined;
  }

  // ---- messages

  messageFront(start, end) {
    this.exports.page_message_front(this.place("result"), ...this.slice(start, end), LIMIT);
    const fault = this.fault(16, start);
    const state = ["open", "whole", "bad"][this.word(0)];
    return { state, length: this.number(8), fault, inside: fault && this.fault(32, fault.offset) };
  }

  // Returns how many of the five numbers at the front of a message are there, and the numbers.
  frontNumbers(start, end) {
    this.exports.page_front_numbers(this.place("result"), ...this.slice(start, end));
    const signed = (at) => this.view.getInt32(this.base + at, true);
    return { count: this.word(0), length: this.word(4), id: signed(8), responseTo: signed(12), opcode: signed(16), flagBits: this.word(20) };
  }

  // Returns the place of what stands at an offset of a message: a number of its header, the flags, or a section.
  messageSpan(start, end, offset) {
    this.exports.page_message_span(this.place("result"), ...this.slice(start, end), BigInt(offset - start));
    return this.span(0, start);
  }

  messageParts(start, end) {
    this.exports.page_message_parts(this.place("result"), ...this.slice(start, end), LIMIT);
    const fault = this.fault(0, start);
    return {
      fault, inside: fault && this.fault(16, fault.offset),
      id: this.view.getInt32(this.base + 32, true), responseTo: this.view.getInt32(this.base + 36, true),
      flagBits: this.word(40), moreToCome: Boolean(this.view.getUint8(this.base + 44)),
      exhaustAllowed: Boolean(this.view.getUint8(this.base + 45)),
    };
  }

  // Reads the section whose kind byte is at `at`.
  section(start, end, at) {
    this.exports.page_section(this.place("result"), ...this.slice(start, end), BigInt(at - start));
    const kind = { 0: "end", 1: "body", 2: "sequence" }[this.word(0)] ?? "none";
    return { kind, identifier: this.span(8, start), documents: this.span(24, start), next: start + this.number(40) };
  }
}
