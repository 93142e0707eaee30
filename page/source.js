// Reads what is pasted, and writes bytes for the address.
"use strict";

const utf8 = new TextDecoder("utf-8", { ignoreBOM: true });

// Reads base64 with `+` and `/`, or with `-` and `_`, as addresses have it.
function bytesOfBase64(text) {
  return Uint8Array.from(atob(text.replace(/-/g, "+").replace(/_/g, "/")), (letter) => letter.charCodeAt(0));
}

const hexOf = (bytes) => Array.from(bytes, (byte) => byte.toString(16).padStart(2, "0")).join("");

// Returns the bytes that a text stands for, as hexadecimal digits or as base64, and which of them; or why it stands for none.
function readSource(text) {
  const digits = text.replace(/0x|\\x|[\s,:;'"]/gi, "");
  if (/^[0-9a-f]*$/i.test(digits)) {
    if (digits.length % 2) return { problem: "There is an odd number of hexadecimal digits." };
    return { bytes: Uint8Array.from(digits.match(/../g) ?? [], (two) => parseInt(two, 16)), form: "hexadecimal digits" };
  }
  try {
    return { bytes: bytesOfBase64(text.replace(/\s/g, "")), form: "base64" };
  } catch {
    return { problem: "This is neither hexadecimal digits nor base64." };
  }
}

// Returns bytes as base64 for the fragment of an address.
function asFragment(bytes) {
  let letters = "";
  for (const byte of bytes) letters += String.fromCharCode(byte);
  return btoa(letters).replace(/\+/g, "-").replace(/\//g, "_").replace(/=/g, "");
}
