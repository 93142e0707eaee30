// Makes and finds elements of the page.
"use strict";

const byId = (id) => document.getElementById(id);

// Makes an element: its attributes by name, `on` its listeners, and what stands in it.
function make(tag, attributes = {}, ...inside) {
  const { on = {}, ...named } = attributes;
  const element = document.createElement(tag);
  for (const [name, value] of Object.entries(named)) {
    if (value !== undefined && value !== false) element.setAttribute(name, value === true ? "" : value);
  }
  for (const [event, listener] of Object.entries(on)) element.addEventListener(event, listener);
  element.append(...inside);
  return element;
}

// Returns whether a modifier is held: such a key is the browser's or a screen reader's.
const hasModifier = ({ ctrlKey, metaKey, altKey }) => ctrlKey || metaKey || altKey;

// Makes the mark of a light or a dark page the other one.
function turnTheme() {
  const root = document.documentElement;
  const dark = root.style.colorScheme
    ? root.style.colorScheme === "dark"
    : matchMedia("(prefers-color-scheme: dark)").matches;
  root.style.colorScheme = dark ? "light" : "dark";
}
