"use strict";
// The page: one cursor over the events of a run, moved by keys, buttons, slider and clicks; whatever it moves to is shown by all parts.

const FAR = 20;
const page = { run: undefined, cursor: 0, axis: "event", kind: "bytes", view: [0, 1], chosen: undefined, asked: 0, noted: 0, sized: 0 };

function drawEvent(changes, moved) {
  const { run, cursor } = page;
  setText(byId("where"), `turn ${grouped(run.events.turn[cursor])} of ${grouped(run.turns)}, event ${grouped(cursor)} of ${grouped(run.last)}`);
  byId("slider").value = cursor;
  byId("slider").setAttribute("aria-valuetext", `turn ${run.events.turn[cursor]}, event ${cursor} of ${run.last}`);
  byId("event").replaceChildren(...sentence(run, cursor).map(part => part.code === undefined ? part : make("code", {}, part.code)));
  setTitle(byId("event"), byId("event").textContent);
  setText(byId("inputs"), inputsTold(run, cursor));
  setTitle(byId("inputs"), byId("inputs").textContent);
  const words = cursor === run.last ? [] : [...changes.map(c => changeWords(run, c)), ...moved.map(c => sessionWords(run, c))];
  byId("changes").replaceChildren(...words.map(text => make("li", {}, text)));
}

function draw() {
  const { run, cursor, chosen } = page, state = stateAt(run, cursor), acts = run.events.leaf[cursor];
  const changes = accountChanges(run, cursor), moved = sessionChanges(run, cursor);
  drawEvent(changes, moved);
  page.boxes.update(state, acts, chosen);
  page.table.update(state, changes, acts, chosen);
  showLines(run, cursor);
  showSessions(run, state, moved, chosen);
  const seen = chosen ?? acts;
  if (seen !== NOBODY) for (const part of [page.plot, page.boxes]) part.show(seen);
  page.plot.moveCursor(cursor);
  clearTimeout(page.noted);
  page.noted = setTimeout(noteEvent, 300);          // a browser refuses too many of these
}
/** Puts the event at the cursor into the address. */
function noteEvent() {
  const fragment = fragmentOf(page.cursor);
  if (page.run && location.hash !== fragment) history.replaceState(null, "", fragment);
}
const drawPlot = () => page.plot.draw(page.axis, page.view, page.kind, page.cursor);

/** Draws once before the next picture, however many steps were asked for until then. */
function drawSoon() {
  cancelAnimationFrame(page.asked);
  page.asked = requestAnimationFrame(draw);
}
function look(position, span) {
  page.view = windowAround(page.run, page.axis, position, span);
  drawPlot();
}
function go(event) {
  const { run, axis, view } = page;
  page.cursor = Math.max(0, Math.min(run.last, event));
  const position = positionOf(run, axis, page.cursor);
  if (position < view[0] || position >= view[1]) look(position, view[1] - view[0]);
  drawSoon();
}
function zoom(factor) {
  const { run, axis, view, cursor } = page;
  look(positionOf(run, axis, cursor), (view[1] - view[0]) * factor);
}
function choose(node) {
  page.chosen = node === page.chosen ? undefined : node;
  drawSoon();
}
function chooseBeside(way) {
  const count = page.run.nodes.length, from = page.chosen ?? (way > 0 ? -1 : count);
  page.chosen = Math.max(0, Math.min(count - 1, from + way));
  drawSoon();
}
/** The chosen component or, where none is, the one whose event is at the cursor. */
function meant() {
  const { run, cursor, chosen } = page, leaf = run.events.leaf[cursor];
  return chosen ?? (leaf === NOBODY ? undefined : leaf);
}
function goOfChosen(way) {
  const node = meant(), event = node === undefined ? undefined : nextOf(page.run, node, page.cursor, way);
  if (event !== undefined) go(event);
}
function goToPeak() {
  const node = meant();
  if (node !== undefined) go(peakOf(page.run, node, page.kind));
}
function setTheme(dark) {
  document.documentElement.classList.toggle("dark", dark);
  if (page.run) drawPlot();
}
function toggleHelp() {
  const help = byId("help");
  if (help.open) help.close(); else help.showModal();
  document.querySelector("[aria-controls=help]").setAttribute("aria-expanded", String(help.open));
}

const ACTIONS = {
  first: () => go(0),
  back: () => go(page.cursor - 1),
  on: () => go(page.cursor + 1),
  last: () => go(page.run.last),
  farBack: () => go(page.cursor - FAR),
  farOn: () => go(page.cursor + FAR),
  closer: () => zoom(0.5),
  wider: () => zoom(2),
  whole: () => zoom(Infinity),
  up: () => chooseBeside(-1),
  down: () => chooseBeside(1),
  none: () => choose(page.chosen),
  previous: () => goOfChosen(-1),
  next: () => goOfChosen(1),
  most: goToPeak,
  theme: () => setTheme(!document.documentElement.classList.contains("dark")),
  help: toggleHelp,
};
const KEYS = {
  Home: "first", ArrowLeft: "back", ArrowRight: "on", End: "last", PageUp: "farBack", PageDown: "farOn", "+": "closer", "=": "closer", "-": "wider", 0: "whole",
  ArrowUp: "up", ArrowDown: "down", Escape: "none", p: "previous", n: "next", m: "most", t: "theme", "?": "help",
};
/** Keys that a list which scrolls keeps for itself while it has the focus. */
const SCROLL_KEYS = new Set(["ArrowUp", "ArrowDown", "PageUp", "PageDown"]);

function onKey(event) {
  const action = KEYS[event.key], { target } = event;
  if (!page.run || !action || event.ctrlKey || event.altKey || event.metaKey || byId("help").open) return;
  if (target.tagName === "SELECT" || SCROLL_KEYS.has(event.key) && target.classList?.contains("scrolls")) return;
  event.preventDefault();
  ACTIONS[action]();
}

function makeLegend() {
  const band = (name, text) => make("span", {}, make("i", { style: `background:var(--${name})` }), text);
  byId("legend").replaceChildren(...PHASES.map(phase => make("span", {}, glyph(phase), phase)), band("quota", "quota"), band("used", "used"),
    ...page.run.nodes.some(n => n.inputs?.length) ? [band("input", "an input is set")] : [],
    ...page.run.nodes.some(n => n.signals) ? [band("signal", "a signal is submitted")] : [],
    make("span", {}, "sessions in the server's colour; dashed: waits, thick: at hand"));
}

/** Shares of the window's height that the time line may have: the first one, unless boxes show too little beside it. */
const TIME_SHARES = [0.45, 0.38, 0.3];
const MARGIN = 6;

/** Divides the window between the boxes and the time line, and answers the layout of the boxes. */
function divide(run) {
  const room = byId("boxes"), time = byId("time"), frames = TIME_SHARES.map(share => {
    time.style.maxHeight = `${100 * share}vh`;
    return { width: Math.max(200, room.clientWidth - 2 * MARGIN), height: Math.max(100, room.clientHeight - 2 * MARGIN) };
  });
  const plan = layoutIn(run.nodes, frames);
  time.style.maxHeight = `${100 * TIME_SHARES[plan.choice]}vh`;
  return plan;
}

/** Makes all that depends on the size of the window. */
function resize() {
  const { run } = page;
  page.plot = undefined;
  byId("boxes").replaceChildren();
  const rows = rowPlaces(run, ROW), height = rows.at(-1).y + rows.at(-1).height + 6;
  byId("time").style.height = `${height}px`;
  page.table = new AccountTable(run, rows, choose);
  byId("accounts").replaceWith(page.table.element);
  page.boxes = new BoxView(run, divide(run), choose);
  page.boxes.svg.style.margin = `${MARGIN}px`;
  byId("boxes").replaceChildren(page.boxes.svg);
  page.plot = new Plot(run, byId("time"), page.table);
  drawPlot();
  draw();
}


function start(title, tree, trace) {
  const run = page.run = readTrace(trace, readTree(tree));
  byId("pick").hidden = true;
  byId("app").hidden = false;
  setText(byId("run"), title || "Run");
  setTitle(byId("run"), title);
  document.title = title ? `${title}: run viewer` : "Run viewer";
  byId("slider").max = run.last;
  byId("kindlabel").hidden = !run.two;
  page.chosen = undefined;
  page.view = wholeWindow(run, page.axis);
  makeLegend();
  page.cursor = eventIn(location.hash, run.last);
  resize();
}
/** Says something in place of a run. */
function showNotice(text) {
  page.run = undefined;
  byId("pick").hidden = false;
  byId("app").hidden = true;
  setText(byId("fault"), text);
}
/** Starts with texts that are still to come, or says why they aren't a run. */
async function attempt(title, texts) {
  showNotice("reading …");
  try {
    const [tree, trace] = await Promise.all(texts);
    await new Promise(drawn => { setTimeout(drawn, 20); });
    start(title, tree, trace);
  } catch (fault) {
    showNotice(fault instanceof Malformed ? fault.message : `These texts can't be shown: ${fault.message}`);
    if (!(fault instanceof Malformed)) throw fault;
  }
}

function listen() {
  for (const button of document.querySelectorAll("[data-do]")) button.addEventListener("click", () => ACTIONS[button.dataset.do]());
  byId("slider").addEventListener("input", () => go(Number(byId("slider").value)));
  byId("axis").addEventListener("change", () => {
    page.axis = byId("axis").value;
    page.view = wholeWindow(page.run, page.axis);
    drawPlot();
  });
  byId("kind").addEventListener("change", () => { page.kind = byId("kind").value; drawPlot(); });
  const canvas = document.querySelector("#plot canvas");
  canvas.addEventListener("click", event => go(page.plot.eventUnder(event.offsetX)));
  canvas.addEventListener("mousemove", event => setTitle(canvas, page.plot.described(event.offsetX, event.offsetY)));
  byId("time").addEventListener("scroll", () => page.plot && drawPlot());
  addEventListener("keydown", onKey);
  addEventListener("resize", () => {
    cancelAnimationFrame(page.sized);
    page.sized = requestAnimationFrame(() => page.run && resize());
  });
  addEventListener("hashchange", () => { if (page.run) go(eventIn(location.hash, page.run.last)); });
  const dark = matchMedia("(prefers-color-scheme: dark)");
  dark.addEventListener("change", () => setTheme(dark.matches));
  setTheme(dark.matches);
  for (const id of ["treefile", "tracefile"]) byId(id).addEventListener("change", openFiles);
}
function openFiles() {
  const [tree] = byId("treefile").files, [trace] = byId("tracefile").files;
  if (tree && trace) attempt(trace.name, [tree, trace].map(async file => new Uint8Array(await file.arrayBuffer())));
}

/** The bytes of a text that `view` has packed. */
async function unpacked(base64) {
  const text = atob(base64), packed = new Uint8Array(text.length);
  for (let i = 0; i < text.length; i++) packed[i] = text.charCodeAt(i);
  return new Uint8Array(await new Response(new Blob([packed]).stream().pipeThrough(new DecompressionStream("gzip"))).arrayBuffer());
}
/** A text that `view` has put in: packed, or with `&` and `<` as `&amp;` and `&lt;`, so that no text ends the element that holds it. */
async function givenText(id) {
  const { textContent, dataset } = byId(id);
  return dataset.packed ? unpacked(textContent) : textContent.replaceAll("&lt;", "<").replaceAll("&amp;", "&");
}

listen();
if (byId("tree").textContent.trim()) givenText("title").then(title => attempt(title.trim(), [givenText("tree"), givenText("trace")]));
