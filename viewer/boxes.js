"use strict";
// The drawing of components as boxes and of sessions as arrows. The shapes are made once for a size of the frame; a step from event to event changes them.

/** What a leaf shows at each detail of layout.js, as numbers of its place in an unscaled box: undefined where it isn't shown. */
const LEAF_PARTS = {
  labels: { name: 16, pill: 21, caps: 33, bar: 42, barHeight: 7, use: 60 },
  full: { name: 16, pill: 21, caps: 33, bar: 42, barHeight: 7, use: 60 },
  short: { name: 13, bar: 18, barHeight: 6, use: 36 },
  least: { name: 13, bar: 17, barHeight: 4 },
};

class BoxView {
  constructor(run, plan, choose) {
    Object.assign(this, { run, plan, choose });
    const { detail, bundled, boxes, ways, then, frame } = plan;
    this.parts = LEAF_PARTS[detail];
    this.inits = run.nodes.filter(n => !n.leaf).map(n => this.makeInit(n, boxes[n.number]));
    this.leaves = run.nodes.filter(n => n.leaf).map(n => this.makeLeaf(n, boxes[n.number]));
    this.ways = ways.map(way => this.makeWay(way));
    this.then = then.map(arrow => this.makeThen(arrow));
    this.svg = makeSvg("svg", { width: frame.width, height: frame.height, role: "img", class: bundled ? "many bundled" : detail === "labels" ? "" : "many" },
      ...this.inits.map(i => i.group), ...this.then.map(t => t.group), ...this.ways.map(w => w.group), ...this.inits.map(i => i.head),
      ...this.leaves.map(l => l.group), ...this.ways.map(w => w.label));
  }
  group(box, attributes) {
    return makeSvg("g", { transform: `translate(${box.x} ${box.y}) scale(${this.plan.scale})`, ...attributes });
  }
  unscaled(box) { return { width: box.width / this.plan.scale, height: box.height / this.plan.scale }; }

  makeInit(node, box) {
    const group = this.group(box, {}), { width, height } = this.unscaled(box);
    const title = makeSvg("title"), head = this.group(box, { class: "head" }), name = fit(node.name, width - 20, NAME_FONT);
    const left = makeSvg("text", { class: "soft", x: width - 9, y: 16, "text-anchor": "end" });
    group.append(title, makeSvg("rect", { class: "frame", width, height, rx: 8 }));
    head.append(makeSvg("text", { class: "name", x: 9, y: 16 }, name), left);
    return { node, group, head, title, left, room: width - 30 - widthOf(name, NAME_FONT) };
  }
  makeLeaf(node, box) {
    const { parts } = this, { width, height } = this.unscaled(box), group = this.group(box, {});
    const part = { node, group, width, title: makeSvg("title"), mark: makeSvg("path", { class: "glyph" }) };
    const name = fit(node.name, width - (parts.pill ? 18 : 30), NAME_FONT), nameAt = parts.pill ? 10 : 24;
    const service = fit(node.provides ?? "", width - 30 - widthOf(name, NAME_FONT)), colour = `fill:${serverColour(this.run, node.number)}`;
    group.append(part.title, makeSvg("rect", { class: "box", width, height, rx: 6 }));
    if (node.provides !== undefined) group.append(makeSvg("rect", { y: 5, width: 4, height: height - 10, style: colour }));
    group.append(makeSvg("text", { class: "name", x: nameAt, y: parts.name }, name));
    if (parts.pill) {
      part.pill = makeSvg("rect", { class: "pill", x: 9, y: parts.pill, height: 16, rx: 8 });
      part.phase = makeSvg("text", { class: "phase", x: 28, y: parts.pill + 12 });
      group.append(makeSvg("text", { class: "soft", x: width - 8, y: parts.name, "text-anchor": "end" }, service), part.pill, part.phase);
      part.caps = makeSvg("text", { x: width - 8, y: parts.caps, "text-anchor": "end" });
      group.append(part.caps);
    }
    part.mark.setAttribute("transform", parts.pill ? `translate(14 ${parts.pill + 3})` : `translate(9 ${parts.name - 9.5})`);
    part.quota = makeSvg("rect", { class: "quota", x: 9, y: parts.bar, height: parts.barHeight, rx: 2 });
    part.used = makeSvg("rect", { class: "used", x: 9, y: parts.bar, height: parts.barHeight, rx: 2 });
    group.append(part.mark, part.quota, part.used);
    if (parts.use) group.append(part.use = makeSvg("text", { x: 9, y: parts.use }));
    group.addEventListener("click", () => this.choose(node.number));
    return part;
  }
  makeWay(way) {
    const { points, client, server, service } = way, size = this.plan.scale, colour = serverColour(this.run, server), d = wayPath(points, 7 * size);
    const part = { way, colour, whole: false, title: makeSvg("title"), path: makeSvg("path", { d }), tip: makeTip(points, size), group: makeSvg("g") };
    part.tip.style.fill = colour;
    part.group.append(part.title, makeSvg("path", { class: "reach", d }), part.path, part.tip);
    part.name = `${this.run.nodes[client].name} to ${this.run.nodes[server].name}: ${service}`;
    const [[x, y]] = points, text = (dy, more) => makeSvg("text", { x: 5, y: dy, ...more });
    part.label = makeSvg("g", { class: "label", transform: `translate(${x} ${y}) scale(${size})` });
    part.label.append(makeSvg("title"), part.above = text(-4.5, {}));
    if (this.plan.detail === "labels") part.label.append(part.below = text(13, { class: "soft" }));
    for (const element of [part.group, part.label]) {
      element.addEventListener("pointerenter", () => this.point(part, true));
      element.addEventListener("pointerleave", () => this.point(part, false));
    }
    return part;
  }
  /** The arrow from a leaf to the one that starts after it. */
  makeThen({ client, server, points }) {
    const size = this.plan.scale, { nodes } = this.run, [[x, y]] = points, group = makeSvg("g", { class: "then" });
    const title = makeSvg("title", {}, `${nodes[server].name} starts after ${nodes[client].name}`), d = wayPath(points, 7 * size);
    group.append(title, makeSvg("path", { class: "reach", d }), makeSvg("path", { class: "way", d }), makeTip(points, size, 0.75));
    const down = points.at(-1)[0] === x, place = down ? `translate(${x + 7 * size} ${(y + points.at(-1)[1]) / 2 + 4 * size})` : `translate(${x + 5} ${y - 4})`;
    group.append(makeSvg("text", { transform: `${place} scale(${size})`, class: "soft" }, "then"));
    return { group, client, server };
  }
  /** Shows a label whole where the pointer is, and the arrow before all others. */
  point(part, whole) {
    part.whole = whole;
    part.group.classList.toggle("whole", whole);
    part.label.classList.toggle("whole", whole);
    if (whole && this.svg.lastChild !== part.label) this.svg.append(part.group, part.label);      // a browser enters anew what is moved
    this.labelWay(part);
  }

  /** Shows a state; `acts` is the leaf of the event, `chosen` a node or undefined. */
  update(state, acts, chosen) {
    for (const init of this.inits) {
      const account = state.accounts[init.node.number];
      if (isNew(init, account.row)) this.updateInit(init, account);
    }
    for (const leaf of this.leaves) {
      const { number } = leaf.node, account = state.accounts[number];
      const signals = signalWords(signalsAt(this.run, number, state.event));
      if (!isNew(leaf, `${account.row} ${number === acts} ${number === chosen} ${signals}`)) continue;
      this.updateLeaf(leaf, account, signals, number === acts, number === chosen);
    }
    const open = new Map();
    for (const session of state.sessions) {
      const key = `${session.client} ${session.service}`;
      if (open.has(key)) open.get(key).push(session); else open.set(key, [session]);
    }
    for (const part of this.ways) {
      const sessions = open.get(`${part.way.client} ${part.way.service}`) ?? [], { client, server } = part.way, mine = client === chosen || server === chosen;
      if (isNew(part, `${sessions.map(s => s.row)} ${mine}`)) this.updateWay(part, sessions, mine ? " mine" : "");
    }
    this.svg.classList.toggle("choosing", chosen !== undefined && this.run.nodes[chosen].leaf);
    const turn = this.run.events.turn[state.event];
    const summary = `${counted(this.run.nodes.length, "component")} and ${counted(state.sessions.length, "open session")} at turn ${grouped(turn)}`;
    setAttributes(this.svg, { "aria-label": summary });
  }
  /** Scrolls to a box, where the drawing is higher than its panel. */
  show(node) {
    const { x, y, width, height } = this.plan.boxes[node], panel = this.svg.parentElement, around = 20;
    if (panel.scrollHeight > panel.clientHeight) panel.scrollTop = scrolledTo(panel.scrollTop, panel.clientHeight, y - around, y + height + around);
    if (panel.scrollWidth > panel.clientWidth) panel.scrollLeft = scrolledTo(panel.scrollLeft, panel.clientWidth, x - around, x + width + around);
  }
  updateInit({ node, title, left, room }, account) {
    const { two } = this.run, free = bytes(account.quota), some = two ? `, ${caps(account.caps)}` : "";
    const full = `${free} of ${bytes(node.quantum)}${two ? `, ${account.caps} of ${caps(node.caps)}` : ""} left`;
    setText(left, firstFit([full, `${free}${some} left`, `${free} left`, free], room));
    const capsTitle = two ? `, and ${account.caps} of ${caps(node.caps)}` : "";
    const offers = node.offers.map(({ service, child }) => `\noffers ${service} from ${child}`).join("");
    setText(title, `${node.label}: ${counted(account.quota, "byte")} of ${counted(node.quantum, "byte")}${capsTitle} not handed to children${offers}`);
  }
  updateLeaf(part, account, signals, acts, chosen) {
    const { node, width } = part, most = this.run.greatest[node.number].quota, room = width - 18;
    const live = account.phase !== "pending" && account.phase !== "exited";
    setAttributes(part.group, { class: `leaf ${account.phase} ${acts ? "acts" : ""} ${chosen ? "chosen" : ""}` });
    setGlyph(part.mark, account.phase);
    setAttributes(part.quota, { width: room * account.quota / most });
    setAttributes(part.used, { width: room * account.used / most });
    const capsUse = `${account.taken} of ${caps(account.caps)}`, use = `${bytes(account.used)} of ${bytes(account.quota)} used`;
    if (part.pill) {
      const pillWidth = widthOf(account.phase, BOLD_FONT) + 26;
      setAttributes(part.pill, { width: pillWidth, style: `fill:var(--${account.phase})` });
      setText(part.phase, account.phase);
      const texts = this.run.two && live ? [capsUse, `${account.taken}/${caps(account.caps)}`, `${account.taken}/${account.caps}`] : [""];
      setText(part.caps, firstFit(texts, width - pillWidth - 23));
    }
    if (part.use) {
      const texts = live ? [use, use.replace(" used", "")] : [account.phase === "exited" ? "all given back" : `starts after ${node.after}`];
      setText(part.use, firstFit(texts, width - 16));
    }
    const facts = [`${node.label}, ${account.phase}`, `${grouped(account.used)} of ${counted(account.quota, "byte")} used`];
    if (node.provides !== undefined) facts[0] += `, provides ${node.provides}`;
    if (this.run.two) facts.push(`${capsUse} taken`);
    if (signals) facts.push(`signals taken: ${signals}`);
    facts.push(`${grouped(account.steps)} of ${counted(account.budget, "step")}`);
    facts.push(`the bar has room for the greatest quota of this run: ${counted(most, "byte")}`);
    setText(part.title, facts.join("\n"));
  }
  updateWay(part, sessions, mine) {
    const labelled = sessions.find(s => s.stage === AT_HAND) ?? sessions.find(s => s.stage === WAITS) ?? sessions[0];
    const kind = !labelled ? "closed" : ["", "idle", "waits", "hand"][labelled.stage];
    setAttributes(part.path, { class: `way ${kind}${mine}`, style: labelled ? `stroke:${part.colour}` : "" });
    setAttributes(part.tip, { class: `tip${mine}`, display: labelled ? "inline" : "none" });
    setText(part.title, labelled ? `${part.name}\n${sessions.map(s => sessionText(this.run, s)).join("\n")}` : `${part.name}, not open`);
    setText(part.label.firstChild, part.title.textContent);
    setAttributes(part.label, { class: `label${labelled ? "" : " closed"}${mine}${part.whole ? " whole" : ""}` });
    Object.assign(part, { sessions, labelled });
    this.labelWay(part);
  }
  /** The label of a way: as long as there is room for, or whole. */
  labelWay({ way, whole, above, below, sessions, labelled }) {
    const room = whole ? Infinity : way.room / this.plan.scale, asked = labelled?.stage > IDLE;
    setText(above, firstFit(labelsOf(way.service, sessions.length, labelled), room, asked ? BOLD_FONT : TEXT_FONT));
    setAttributes(above, { class: asked ? "asked" : "" });
    if (!below) return;
    const sum = { lends: sessions.reduce((total, s) => total + s.lends, 0), caps: sessions.reduce((total, s) => total + s.caps, 0) };
    setText(below, labelled ? firstFit([`lends ${lent(this.run, sum)}`, lent(this.run, sum)], room) : "");
  }
}

/** Where a panel that shows so much from a place has to begin, so that it shows what is from one place to another. */
const scrolledTo = (at, shown, from, to) => from < at ? from : to > at + shown ? to - shown : at;

/** Whether a part has something else to show than it shows, by a key of what it shows. */
function isNew(part, key) {
  const differs = part.shown !== key;
  part.shown = key;
  return differs;
}

/** The path of a way, its corners round. */
function wayPath(points, radius) {
  let path = `M${points[0]}`;
  for (let i = 1; i + 1 < points.length; i++) {
    const [before, corner, after] = points.slice(i - 1, i + 2), far = other => Math.hypot(other[0] - corner[0], other[1] - corner[1]) || 1;
    const toward = other => corner.map((value, k) => value + (other[k] - value) * Math.min(0.5, radius / far(other)));
    path += `L${toward(before)}Q${corner} ${toward(after)}`;
  }
  return `${path}L${points.at(-1)}`;
}
/** The head of an arrow that ends as the points do. */
function makeTip(points, scale, part = 1) {
  const [[fromX, fromY], [x, y]] = points.slice(-2), length = Math.hypot(x - fromX, y - fromY) || 1, size = 8 * scale * part;
  const [dx, dy] = [(x - fromX) / length * size, (y - fromY) / length * size];
  return makeSvg("path", { class: "tip", d: `M${x} ${y}L${x - dx - dy / 2} ${y - dy + dx / 2}L${x - dx + dy / 2} ${y - dy - dx / 2}Z` });
}

/** All that the trace has of a session. */
function sessionText(run, session) {
  const request = session.request ? `, ${session.request} ${STAGES[session.stage]}` : "";
  return `session ${session.number} at level ${session.level}, lends ${counted(session.lends, "byte")}${run.two ? ` and ${caps(session.caps)}` : ""}${request}`;
}
