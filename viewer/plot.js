"use strict";
// The drawing of the time line: beside each row of the table a band of its account, below it a thin bar for each session of that client. Only the rows in
// sight are drawn; the canvas is as large as the part of the panel that is seen, and stays there while the panel scrolls.

const ROW = { top: 21, band: 19, lane: 4 };
const BAND = 13;

class Plot {
  constructor(run, panel, table) {
    Object.assign(this, { run, panel, table, rows: rowPlaces(run, ROW), canvas: byId("plot").querySelector("canvas"), line: byId("cursor") });
    Object.assign(this.canvas, { width: 0, height: 0 });      // of a size that it had, it could need a scroll bar
    Object.assign(this.canvas.style, { width: "0", height: "0" });
    this.height = this.rows.at(-1).y + this.rows.at(-1).height + 2;
  }
  get width() { return Math.max(200, this.panel.clientWidth - this.table.width - 2); }
  get seen() { return Math.max(40, Math.min(this.height, this.panel.clientHeight)); }
  xOf(position, [from, to]) { return (position - from) / (to - from) * this.width; }

  draw(axis, view, kind, cursor) {
    const { run, width, seen, canvas } = this, ratio = devicePixelRatio || 1, key = `${axis} ${view} ${width}`;
    if (this.key !== key) Object.assign(this, { key, columns: columnEvents(run, axis, view, Math.round(width)), kept: new Map() });
    Object.assign(this, { axis, view, kind, pen: canvas.getContext("2d"), colours: new Map(), scrolled: this.panel.scrollTop });
    Object.assign(canvas, { width: width * ratio, height: seen * ratio });
    Object.assign(canvas.style, { width: `${width}px`, height: `${seen}px` });
    this.pen.scale(ratio, ratio);
    this.drawMarks();
    for (const row of this.rows) if (row.y + row.height > this.scrolled + ROW.top && row.y < this.scrolled + seen) this.drawRow(row);
    this.drawAxis();
    const what = kind === "caps" ? "capabilities" : "bytes";
    setAttributes(canvas, { "aria-label": `${what} of ${counted(run.nodes.length, "account")}, and their sessions, over ${counted(run.turns, "turn")}` });
    this.moveCursor(cursor);
  }
  /** A colour that a canvas knows, of a name in page.css (`--line` or `var(--line)`) or of a plain colour. */
  colour(value) {
    const [, name] = /^(?:var\()?(--\w+)\)?$/.exec(value) ?? [];
    if (name === undefined) return value;
    if (!this.colours.has(name)) this.colours.set(name, getComputedStyle(document.documentElement).getPropertyValue(name));
    return this.colours.get(name);
  }
  /** What a row or a lane shows in the columns of this window, made once for a window. */
  columnsOf(key, makeThem) {
    if (!this.kept.has(key)) this.kept.set(key, makeThem());
    return this.kept.get(key);
  }
  rect(colour, x, y, width, height) {
    this.pen.fillStyle = this.colour(colour);
    this.pen.fillRect(x, y, width, height);
  }
  drawMarks() {
    this.marks = marksOf(this.run, this.axis, this.view, this.width, 92);
    for (const { x } of this.marks) this.rect("--line", Math.round(x), ROW.top, 1, this.seen);
  }
  /** The head, over whatever a row that is scrolled half away has drawn there. */
  drawAxis() {
    this.rect("--panel", 0, 0, this.width, ROW.top);
    this.pen.font = TEXT_FONT;
    for (const { x, text } of this.marks) {
      this.rect("--line", Math.round(x), ROW.top - 6, 1, 6);
      this.pen.fillStyle = this.colour("--soft");
      if (x + widthOf(text) + 6 < this.width) this.pen.fillText(text, x + 4, 13);
    }
  }
  drawRow({ node, y, height }) {
    const top = y - this.scrolled, base = top + 2 + BAND, fields = this.kind === "caps" ? ["caps", "taken"] : ["quota", "used"];
    const most = this.run.greatest[node][fields[0]], tall = value => BAND * value / most;
    this.rect("--line", 0, top + height - 1, this.width, 0.5);
    for (const [colour, field] of [["--quota", fields[0]], ["--used", fields[1]]]) {
      const { low, high } = this.columnsOf(`${node} ${field}`, () => bandOf(this.run, node, field, this.columns));
      for (const [x, wide] of runsOf(this.columns.count, (a, b) => low[a] === low[b] && high[a] === high[b])) {
        this.rect(colour, x, base - tall(low[x]), wide, tall(low[x]));
        this.pen.globalAlpha = 0.5;                 // between the least and the greatest of these columns
        this.rect(colour, x, base - tall(high[x]), wide, tall(high[x] - low[x]));
        this.pen.globalAlpha = 1;
      }
    }
    const { settings, settingRows, signals } = this.run;
    this.drawEvents(settings, settingRows.of(node), "--input", top + 1);
    for (let signal = 0; signal < SIGNALS; signal++) this.drawEvents(signals, signals.ofSignal.of(node * SIGNALS + signal), "--signal", top + 7);
    this.run.nodes[node].lanes.forEach((lane, i) => this.drawLane(lane, base + 2 + i * ROW.lane));
  }
  /** A mark at each event of this window at which something comes to a leaf from outside: an input is set, or a signal submitted. */
  drawEvents({ event }, rows, colour, y) {
    const half = this.axis === "event" ? 0.5 : 0;
    let last = -1;
    for (const row of rows) {
      const x = Math.round(this.xOf(positionOf(this.run, this.axis, event[row]) + half, this.view));
      if (x !== last && x >= 0 && x <= this.width) this.rect(colour, x - 1, y, 2, 5);
      last = x;
    }
  }
  drawLane(lane, y) {
    const { server, stage } = this.columnsOf(lane, () => laneOf(this.run, lane, this.columns));
    for (const [x, wide] of runsOf(this.columns.count, (a, b) => server[a] === server[b] && stage[a] === stage[b])) {
      if (server[x] === NOBODY) continue;
      const busy = stage[x] > IDLE;
      this.rect(serverColour(this.run, server[x]), x, busy ? y : y + 1, wide, busy ? 3 : 1);
    }
  }
  moveCursor(event) {
    const half = this.axis === "event" ? 0.5 : 0, x = this.xOf(positionOf(this.run, this.axis, event) + half, this.view);
    // (the head has the numbers of turns, over which nothing is drawn but the tip of the cursor)
    const display = x < 0 || x > this.width ? "none" : "";
    Object.assign(this.line.style, { left: `${x - 1}px`, top: `${ROW.top - 6}px`, height: `${this.seen - ROW.top + 6}px`, display });
  }
  /** The event under a place of the pointer. */
  eventUnder(x) { return eventAt(this.run, this.axis, this.view[0] + x / this.width * (this.view[1] - this.view[0])); }
  /** What is said of a place of the pointer: the account there. */
  described(x, y) {
    const row = this.rows.findLast(r => r.y <= y + this.scrolled && y >= ROW.top), event = this.eventUnder(x);
    if (!row) return "";
    const node = this.run.nodes[row.node], account = accountAt(this.run, row.node, event), hidden = node.mostSessions - node.lanes.length;
    const { two } = this.run, taken = two ? `, ${account.taken} of ${caps(account.caps)} taken` : "", left = two ? `, ${caps(account.caps)}` : "";
    const use = node.leaf ? `${bytes(account.used)} of ${bytes(account.quota)} used${taken}, ${account.phase}` : `${bytes(account.quota)}${left} left`;
    return `${node.name}, turn ${grouped(this.run.events.turn[event])}: ${use}${hidden > 0 ? `; ${hidden} of its sessions have no bar` : ""}`;
  }
  show(node) {
    const row = this.rows[node], { panel } = this;
    if (row.y - ROW.top < panel.scrollTop) panel.scrollTop = row.y - ROW.top;
    else if (row.y + row.height > panel.scrollTop + panel.clientHeight) panel.scrollTop = row.y + row.height - panel.clientHeight;
  }
}
