// What the numbers of kinds and faults are called, and the rule that each fault breaks.
"use strict";

const KINDS = {
  1: "double", 2: "string", 3: "document", 4: "array", 5: "binary", 6: "undefined", 7: "objectid", 8: "boolean", 9: "datetime",
  10: "null", 11: "regex", 12: "dbpointer", 13: "code", 14: "symbol", 15: "codescope", 16: "int32", 17: "timestamp", 18: "int64",
  19: "decimal128", 127: "maxkey", 255: "minkey",
};

// In the order of their numbers, from 1 on.
const DOCUMENT_FAULTS = [
  ["Truncated", "An item reaches past the document or value that holds it, or a cstring has no 00 in it."],
  ["Length", "A length is below its least value, or isn't that of all bytes."],
  ["End", "The last byte of a document, an array or a scope is 00, and no type byte before it is."],
  ["Kind", "A type byte stands for one of the 21 kinds of values."],
  ["Name", "A name, a pattern or options are UTF-8."],
  ["Text", "The text of a string is UTF-8."],
  ["TextEnd", "The last byte of a string is 00."],
  ["Boolean", "The byte of a boolean is 00 or 01."],
  ["OldBinary", "The inner count of a binary of subtype 02 is that of the bytes behind it."],
  ["Scope", "The code and the scope of a code with scope fill its length."],
  ["Depth", "Documents, arrays and scopes nest 200 deep at most."],
];

const MESSAGE_FAULTS = [
  ["Length", "messageLength is at least 16, at most 48,000,000, and the number of the message's bytes."],
  ["Opcode", "opCode is 2013, that of OP_MSG."],
  ["Flags", "Of the flag bits 2 to 15, which a reader has to know, none is set."],
  ["Checksum", "checksumPresent isn't set: checksums aren't verified here."],
  ["SectionKind", "The kind byte of a section is 0 or 1."],
  ["SectionSize", "The size of a document sequence is at least 5, and ends in the message."],
  ["Document", "Each document in a message is one."],
  ["NoBody", "One section is a body."],
  ["TwoBodies", "Only one section is a body."],
  ["RepeatedField", "No top-level name of the body stands twice."],
  ["SequenceName", "The identifier of a sequence is UTF-8, and ends with 00 in its section."],
  ["SequenceInBody", "The identifier of a sequence is no top-level name of the body."],
  ["Truncated", "The four bytes of flags are there."],
  ["EndedInside", "A message has as many bytes as its header says."],
];

const namedFault = (table, { number }) => table[number - 1] ?? [`Fault ${number}`, "No rule is known by this number."];
