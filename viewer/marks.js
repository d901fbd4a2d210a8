"use strict";
// What marks an arrow: the colour of its server, and a label that is as long as there is room for. Pure functions over a run (read.js).

/** The colours that page.css has for servers, `--server0` on. Where one client holds sessions with more servers than that, further colours are made. */
const SERVER_COLOURS = 8;

/** For each server those with which it shares a client. */
function rivalsOf(nodes) {
  const rivals = new Map(nodes.filter(n => n.provides !== undefined).map(n => [n.number, new Set()]));
  for (const { opens } of nodes) for (const one of opens) for (const other of opens) {
    if (one.server === other.server) continue;
    if (!rivals.has(one.server)) rivals.set(one.server, new Set());
    rivals.get(one.server).add(other.server);
  }
  return rivals;
}

/**
 * A number of a colour for each server, in a map: no two servers that share a client have the same. Each takes the one that the fewest have so far, so that
 * as few as can be have the same at all.
 */
function coloursOf(nodes) {
  const colours = new Map(), rivals = rivalsOf(nodes), used = new Array(SERVER_COLOURS).fill(0);
  for (const [server, others] of rivals) {
    const taken = new Set([...others].map(other => colours.get(other)));
    let best;
    for (let colour = 0; colour < used.length; colour++) if (!taken.has(colour) && (best === undefined || used[colour] < used[best])) best = colour;
    best ??= used.push(0) - 1;
    used[best]++;
    colours.set(server, best);
  }
  return colours;
}

/** The style value of a colour. Further ones go by the golden ratio over the hues from blue to red and from yellow to green, where no phase has its own. */
function colourValue(colour) {
  if (colour < SERVER_COLOURS) return `var(--server${colour})`;
  const further = colour - SERVER_COLOURS, hue = 220 + 230 * (0.618034 * further % 1);
  return `hsl(${(hue < 370 ? hue : hue + 55).toFixed(1)} 85% ${[42, 55, 33][further % 3]}%)`;
}

/** The text, shortened where it is wider than so many pixels; empty where there is room for nothing of it. */
function shortened(text, width, measure) {
  if (measure(text) <= width) return text;
  let length = text.length;
  while (length > 0 && measure(text.slice(0, length) + "…") > width) length--;
  return length > 0 ? text.slice(0, length) + "…" : "";
}
/** The first of several texts that is not wider than so many pixels; the last one is shortened. */
const firstOf = (texts, width, measure) => texts.find(text => measure(text) <= width) ?? shortened(texts.at(-1), width, measure);

/** What the label of a way says of its open sessions, the longest text first; `shown` is the one that matters most, undefined where none is open. */
function labelsOf(service, count, shown) {
  if (!shown) return [service];
  const name = count > 1 ? `${count} × ${service}` : service, level = `${name} L${shown.level}`;
  if (shown.stage === IDLE) return [level, name, service];
  const request = `${shown.request} ${STAGES[shown.stage]}`;
  return [`${level} ${request}`, `${name} ${request}`, `${name} ${shown.request}`, name, service];
}
