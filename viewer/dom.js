"use strict";
// Making elements. Texts come in as text alone, never as markup: what components write is not to be trusted.

const byId = id => document.getElementById(id);

function make(tag, attributes = {}, ...content) {
  return fill(document.createElement(tag), attributes, content);
}
function makeSvg(tag, attributes = {}, ...content) {
  return fill(document.createElementNS("http://www.w3.org/2000/svg", tag), attributes, content);
}
function fill(element, attributes, content) {
  for (const [name, value] of Object.entries(attributes)) if (value !== undefined) element.setAttribute(name, value);
  element.append(...content);
  return element;
}
/** Sets a text only where it differs, so that nothing is laid out again for what stays. */
function setText(element, text) {
  if (element.textContent !== text) element.textContent = text;
}
function setAttributes(element, attributes) {
  for (const [name, value] of Object.entries(attributes)) if (element.getAttribute(name) !== String(value)) element.setAttribute(name, value);
}
const setTitle = (element, text) => setAttributes(element, { title: text });

/** Makes an element's children those of `items`, by their keys: one that is there already stays, so that a step costs what it changes. */
function setChildren(parent, items, keyOf, makeOne) {
  const old = parent.byKey ?? new Map(), children = parent.byKey = new Map();
  for (const item of items) {
    const key = keyOf(item);
    children.set(key, old.get(key) ?? makeOne(item));
  }
  for (const [key, child] of old) if (!children.has(key)) child.remove();
  let place = parent.firstChild;
  for (const child of children.values()) {
    if (child === place) place = place.nextSibling; else parent.insertBefore(child, place);
  }
}

const TEXT_FONT = "11.5px system-ui, sans-serif", NAME_FONT = "700 12.5px system-ui, sans-serif", BOLD_FONT = "700 11.5px system-ui, sans-serif";
const pen = document.createElement("canvas").getContext("2d"), widths = new Map();
function widthOf(text, font = TEXT_FONT) {
  const key = font + text;
  if (!widths.has(key)) {
    if (widths.size > 20000) widths.clear();
    pen.font = font;
    widths.set(key, pen.measureText(text).width);
  }
  return widths.get(key);
}
/** The text, shortened where it is wider than so many pixels. */
const fit = (text, width, font) => shortened(text, width, part => widthOf(part, font));
/** The first of several texts that is not wider than so many pixels; the last one is shortened. */
const firstFit = (texts, width, font) => firstOf(texts, width, text => widthOf(text, font));

// A shape for each phase, in a square of 10, so that no phase is known by its colour alone.
const GLYPHS = {
  pending: "M1 9V1H9V9Z M3 5H7",
  running: "M2 .5L9.5 5L2 9.5Z",
  blocked: "M1.5 1H4V9H1.5Z M6 1H8.5V9H6Z",
  serving: "M5 .7A4.3 4.3 0 1 0 5 9.3A4.3 4.3 0 1 0 5 .7Z",
  handling: "M5 0L10 5L5 10L0 5Z",
  exited: "M1.5 0L5 3.5L8.5 0L10 1.5L6.5 5L10 8.5L8.5 10L5 6.5L1.5 10L0 8.5L3.5 5L0 1.5Z",
};
const setGlyph = (path, phase) => setAttributes(path, { d: GLYPHS[phase], style: `fill:var(--${phase})` });
function glyph(phase) {
  const path = makeSvg("path", { class: "glyph" });
  setGlyph(path, phase);
  return makeSvg("svg", { viewBox: "-.5 -.5 11 11", "aria-hidden": "true" }, path);
}

/** The colour of a server as a style's value. */
const serverColour = (run, server) => colourValue(run.colours.get(server) ?? 0);
