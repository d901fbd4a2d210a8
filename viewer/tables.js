"use strict";
// The table of accounts, the lines that were written, the open sessions: in words and numbers.

const SHOWN_LINES = 300, SHOWN_SESSIONS = 200;
const COLUMNS = [
  ["component", 0, "the component; a colour marks the servers"], ["phase", 94, "what a leaf does at this event"],
  ["used", 80, "bytes that a leaf holds"], ["quota", 80, "bytes that a leaf may hold; of an init, what it has not handed out"],
  ["caps", 68, "capabilities: taken / quota; of an init, what it has not handed out"], ["steps", 62, "steps taken, as of the last line that has them"],
];

class AccountTable {
  constructor(run, rows, choose) {
    this.run = run;
    const names = Math.min(230, Math.max(90, ...run.nodes.map(n => 9 * n.depth + 20 + widthOf(n.name, "500 12px system-ui, sans-serif"))));
    this.columns = COLUMNS.filter(([field]) => field !== "caps" || run.two).map(([field, width, title]) => ({ field, width: width || names, title }));
    const heads = this.columns.map(c => make("th", { scope: "col", title: c.title, style: `width:${c.width}px` }, c.field));
    const head = make("tr", { style: `height:${ROW.top}px` }, ...heads);
    this.rows = rows.map(row => this.makeRow(row, choose));
    this.width = this.columns.reduce((sum, c) => sum + c.width, 0);
    this.element = make("table", { id: "accounts", "aria-label": "accounts", style: `width:${this.width}px` }, make("thead", {}, head),
      make("tbody", {}, ...this.rows.map(r => r.element)));
  }
  makeRow({ node, height }, choose) {
    const { name, label, depth, provides } = this.run.nodes[node], cells = this.columns.slice(1).map(() => make("td"));
    const colour = provides === undefined ? "" : `border-left-color:${serverColour(this.run, node)};`;
    const head = make("th", { scope: "row", title: label, style: `${colour}padding-left:${4 + 9 * depth}px` }, name);
    const element = make("tr", { style: `height:${height}px` }, head, ...cells);
    element.addEventListener("click", () => choose(node));
    return { node, element, cells };
  }
  update(state, changes, acts, chosen) {
    const changed = new Map(changes.map(c => [`${c.node} ${c.field === "taken" ? "caps" : c.field}`, c]));
    const marked = new Set(changes.map(c => c.node));
    for (const row of this.rows) {
      const { node, element, cells } = row;
      setAttributes(element, { class: `${node === acts ? "acts" : ""} ${node === chosen ? "chosen" : ""}` });
      if (!isNew(row, `${state.accounts[node].row} ${marked.has(node)}`)) continue;
      const account = state.accounts[node];
      this.columns.slice(1).forEach(({ field }, i) => this.setCell(cells[i], this.run.nodes[node], field, account, changed.get(`${node} ${field}`)));
    }
  }
  setCell(cell, node, field, account, change) {
    const [text, exact] = cellOf(node, field, account), sign = !change || field === "phase" ? "" : change.after > change.before ? "▲" : "▼";
    setAttributes(cell, { class: change ? "changed" : "" });
    setTitle(cell, exact + (change ? `, was ${grouped(change.before)}` : ""));
    const shown = sign + text;
    if (cell.textContent === shown) return;
    cell.replaceChildren(...(field === "phase" && text ? [glyph(text), text] : [shown]));
  }
}

/** The short and the exact text of a cell. */
function cellOf(node, field, account) {
  if (field === "phase") return node.leaf ? [account.phase, account.phase] : ["", ""];
  if (field === "quota" || field === "used") return field === "used" && !node.leaf ? ["", ""] : [bytes(account[field]), counted(account[field], "byte")];
  if (field === "caps" && node.leaf) return [`${account.taken}/${account.caps}`, `${account.taken} of ${caps(account.caps)}`];
  if (field === "caps") return [grouped(account.caps), caps(account.caps)];
  return node.leaf ? [grouped(account.steps), `${grouped(account.steps)} of ${counted(account.budget, "step")}`] : ["", ""];
}

/** The lines up to an event: the last ones, those of the event marked. */
function showLines(run, event) {
  const count = linesUpTo(run, event), from = Math.max(0, count - SHOWN_LINES), list = byId("lines");
  setText(byId("lineshead"), count ? `${counted(count, "line")} written${from ? `, ${SHOWN_LINES} shown` : ""} (by turn)` : "No line written yet");
  const isNow = line => run.lines.event[line] === event;
  setChildren(list, Array.from({ length: count - from }, (_, i) => from + i), line => isNow(line) ? -1 - line : line, line => {
    const { name, label } = run.nodes[run.lines.leaf[line]], turn = grouped(run.events.turn[run.lines.event[line]]);
    return make("p", { class: isNow(line) ? "now" : "", title: label }, make("span", { class: "turn" }, turn), ` ${name}: `, lineText(run, line));
  });
  list.scrollTop = 1e9;
}

/** The open sessions by number, those that the event changes marked; where there are too many, those that matter most. */
function showSessions(run, state, changes, chosen) {
  const changed = new Set(changes.map(c => c.number)), isMine = s => s.client === chosen || s.server === chosen;
  const rank = s => changed.has(s.number) ? 0 : isMine(s) ? 1 : s.request ? 2 : 3, all = chosen === undefined ? state.sessions : state.sessions.filter(isMine);
  const shown = all.length > SHOWN_SESSIONS ? [...all].sort((a, b) => rank(a) - rank(b)).slice(0, SHOWN_SESSIONS).sort((a, b) => a.number - b.number) : all;
  const of = chosen === undefined ? "" : ` of ${run.nodes[chosen].name}`, more = all.length > shown.length ? `, ${shown.length} shown` : "";
  setText(byId("sessionshead"), `${counted(all.length, "open session")}${of}${more}`);
  setChildren(byId("sessions"), shown, s => `${s.row} ${changed.has(s.number)}`, s => sessionCard(run, s, changed.has(s.number)));
  byId("sessions").querySelector(".now")?.scrollIntoView({ block: "nearest" });
}
function sessionCard(run, session, changed) {
  const { client, server, service, level, number } = session, name = node => run.nodes[node].name;
  const request = session.request ? make("b", {}, ` · ${session.request} ${STAGES[session.stage]}`) : "";
  const head = make("div", {}, make("b", {}, `${number} ${service}`), ` level ${level}`, request);
  const ends = make("div", {}, `${name(client)} → ${name(server)} `, make("span", { class: "soft" }, `lends ${lent(run, session)}`));
  const title = `${run.nodes[client].label}\nwith ${run.nodes[server].label}\n${sessionText(run, session)}`;
  const colour = `border-left-color:${serverColour(run, server)}`;
  return make("div", { class: `card ${changed ? "now" : ""}`, style: colour, title }, head, ends);
}
