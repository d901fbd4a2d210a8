"use strict";
// Places: boxes within boxes, and what leads between them. Pure functions over the nodes of a tree (read.js); numbers are pixels of the frame.
//
// Clients stand left of what they open, in columns, and a leaf that starts after another stands below it. How much a box shows is its detail: the first
// detail whose boxes fit into the frame at a size that can be read is taken. Each client has a strip at its right for what is said of its sessions. Heights
// come first, from the inside out; ways.js leads the ways between them; widths follow, because a gap is as wide as the tracks that it needs.

/**
 * Of each detail: the size of a box; the gap between boxes and, with an arrow between them, `then`; the room of a way at its client (`port`, `above` of which
 * is for its label), in a column that it passes (`thin`), at its server (`arrive`) and between columns (`track`); the least gap between columns (`between`);
 * the strip for labels. Where ways are bundled, those to one server are one line from where they meet.
 */
const DETAILS = [
  { name: "labels", width: 168, height: 66, gap: 10, then: 22, port: 31, above: 16, thin: 9, arrive: 10, track: 8, between: 26, strip: 112 },
  { name: "labels", width: 168, height: 66, gap: 10, then: 22, port: 31, above: 16, thin: 9, arrive: 10, track: 8, between: 24, strip: 86 },
  { name: "full", width: 168, height: 66, gap: 9, then: 20, port: 18, above: 14, thin: 7, arrive: 7, track: 6, between: 24, strip: 62 },
  { name: "short", width: 124, height: 40, gap: 8, then: 20, port: 17, above: 13, thin: 6, arrive: 6, track: 5, between: 22, strip: 54 },
  { name: "least", width: 104, height: 26, gap: 6, then: 18, port: 14, above: 12, thin: 5, arrive: 5, track: 4, between: 22, strip: 34 },
  { name: "least", width: 104, height: 26, gap: 6, then: 18, port: 13, above: 11, thin: 6, arrive: 6, track: 5, between: 22, strip: 20, bundled: true },
];
const HEAD = 24, PAD = 9;
/** Boxes are shown at most so much larger than they are, at least so large where a lesser detail is left, and never smaller than they can be read. */
const LARGEST = 1.45, SMALLEST = 0.92, LEAST_READ = 0.84;
/** A drawing is at most so many times as high as its panel before its ways are bundled. */
const MOST_SCREENS = 2.5;
const SCROLLBAR = 16;
/** A letter of a label is about so wide, and a label has room for at most so many of a service's. */
const LETTER = 6.5, LETTERS = 14;

/** A detail with boxes as wide as the longest name of a leaf needs. */
function widened(detail, nodes) {
  const longest = nodes.reduce((most, n) => Math.max(most, n.leaf ? n.name.length : 0), 0);
  return { ...detail, width: Math.max(detail.width, 32 + 8.4 * Math.min(16, longest)) };
}
/** The width of the strip for labels: by the longest service that a leaf opens. */
const stripOf = (opens, { strip }) => strip + LETTER * Math.min(LETTERS, opens.reduce((most, o) => Math.max(most, o.service.length), 3));

/** The leaf after which a node starts. */
const leafBefore = node => node.after === undefined ? undefined : node.parent?.children.find(other => other.leaf && other.name === node.after);

/**
 * For each leaf that stands right below the one that it starts after, that one. Who provides a service stands where its clients need it, and of two that
 * start after the same leaf only the first stands below it.
 */
function chained(nodes) {
  const above = new Map(), taken = new Set();
  for (const node of nodes) {
    const before = leafBefore(node);
    if (!before || before === node || taken.has(before) || node.provides !== undefined || before.provides !== undefined) continue;
    let first = before;
    while (above.has(first)) first = above.get(first);
    if (first === node) continue;                   // a tree that was never accepted may go round in a circle
    above.set(node, before);
    taken.add(before);
  }
  return above;
}

/** The ways of a tree: one for each service that a leaf opens, and one to each leaf that starts after another and does not stand below it. */
function waysOf(nodes, above) {
  const way = (kind, client, server, service) => ({
    kind, client, server, service, key: `${kind} ${server}`, stations: [], gaps: [], entry: { stations: [], gaps: [] },
  });
  const sessions = nodes.flatMap(n => n.opens.map(({ service, server }) => way("session", n.number, server, service)));
  const others = nodes.filter(n => n.leaf && leafBefore(n) && leafBefore(n) !== n && !above.has(n));
  return [...sessions, ...others.map(n => way("after", leafBefore(n).number, n.number, ""))];
}

/** How far each of `count` items is from those that lead to none of their neighbours. */
function levelsOf(count, edges) {
  const level = [], outgoing = Array.from({ length: count }, () => []);
  for (const { from, to } of edges) if (from >= 0 && to >= 0 && to !== from) outgoing[from].push(to);
  const find = i => {
    if (level[i] !== undefined) return level[i];
    level[i] = 0;                                   // a tree that was never accepted may go round in a circle
    level[i] = outgoing[i].reduce((most, to) => Math.max(most, 1 + find(to)), 0);
    return level[i];
  };
  return Array.from({ length: count }, (_, i) => find(i));
}

/** The height that an item takes in its column; frames of inits stand further apart than boxes, so that two don't look like one. */
const roomOf = (item, detail) => item.height + (item.columns ? Math.max(12, detail.gap) : detail.gap);

/**
 * Items by column, those of the highest level first; a level that is higher than the limit becomes several columns. Answers the columns, and by how much the
 * limit has to be higher for fewer of them.
 */
function columnsOf(items, levels, detail, limit) {
  const columns = [];
  let more = Infinity;
  for (let level = Math.max(0, ...levels); level >= 0; level--) {
    const members = items.filter((_, i) => levels[i] === level), total = members.reduce((sum, m) => sum + roomOf(m, detail), 0);
    const parts = Math.max(1, Math.ceil(total / Math.max(limit, ...members.map(m => roomOf(m, detail)))));
    if (parts > 1) more = Math.min(more, total / (parts - 1) - limit);
    let column = [], filled = 0;
    for (const item of members) {
      if (column.length && filled + item.height / 2 > total / parts) {
        columns.push(column);
        [column, filled] = [[], 0];
      }
      column.push(item);
      filled += roomOf(item, detail);
    }
    columns.push(column);
  }
  return { columns, more };
}

/** The place among the items of an init of the one that holds a leaf; -1 where none does. */
const itemWith = (items, leaf) => items.findIndex(item => item.leaves.has(leaf));

const FREE_ROUNDS = 12, BOUND_ROUNDS = 4;
const total = column => column.reduce((sum, item) => sum + item.room, 0);
/** Orders the items of each column of an init, and gives them places near to what they are linked with; all columns within the height of the tallest. */
function settleColumns({ columns, inset }) {
  const tallest = columns.reduce((most, c) => total(c) > total(most) ? c : most, columns[0]);
  let top;
  for (let round = 0; round < FREE_ROUNDS + BOUND_ROUNDS; round++) {
    if (round === FREE_ROUNDS) top = tallest.reduce((least, item) => Math.min(least, item.middle - item.room / 2), Infinity);
    for (const column of round % 2 ? [...columns].reverse() : columns) {
      for (const item of column) item.wish = item.links.length ? mean(item.links.map(other => other.middle)) : item.middle;
      column.sort((a, b) => a.wish - b.wish);
      if (round < FREE_ROUNDS) settle(column); else settleWithin(column, top, top + total(tallest));
    }
  }
  for (const item of columns.flat()) item.y = HEAD + item.middle - item.height / 2 - top - inset;
}

/** Arranges the items of an init in columns, and leads the ways between them; its height is that of the tallest column. */
function arrange(owner, ways, detail, limit) {
  const { items } = owner, ends = ways.map(way => ({ way, from: itemWith(items, way.client), to: itemWith(items, way.server) }));
  const edges = ends.filter(({ from, to }) => from !== to);
  Object.assign(owner, columnsOf(items, levelsOf(items.length, edges), detail, limit));
  owner.columns.forEach((column, c) => column.forEach((item, k) => Object.assign(item, { column: c, room: roomOf(item, detail), middle: k * detail.height })));
  lead(edges, items, owner, detail);
  for (const column of owner.columns) column.forEach((item, k) => { item.middle ??= k * detail.height; });
  owner.inset = detail.thin / 2;                    // less than half of the gap above the first item and below the last
  owner.height = HEAD + Math.max(0, Math.max(...owner.columns.map(total)) - 2 * owner.inset) + PAD;
}
/** The least that an init can be wide. */
function leastWidth(item, detail) {
  if (!item.columns) return widthOfItem(item, detail);
  const widest = column => column.reduce((most, inner) => Math.max(most, leastWidth(inner, detail)), 0);
  return item.columns.reduce((sum, column) => sum + widest(column) + detail.between, 2 * PAD - detail.between);
}

/** A leaf as an item: as high as what it shows, and as its ways at both sides, need. */
function leafItem(node, ways, detail) {
  const opens = ways.filter(way => way.client === node.number), comes = ways.filter(way => way.server === node.number);
  const arrivals = detail.bundled ? new Set(comes.map(way => way.key)).size : comes.length, width = detail.width + (opens.length ? stripOf(opens, detail) : 0);
  const height = Math.max(detail.height, opens.length * detail.port, arrivals * detail.arrive + 6);
  return { node, width, height, links: [], leaves: new Set([node.number]), parts: [] };
}
/** Leaves that start one after the other, from above. */
function chainItem(parts, detail) {
  let height = -detail.then;
  for (const part of parts) {
    part.y = height + detail.then;
    height = part.y + part.height;
  }
  return { parts, height, links: [], leaves: new Set(parts.flatMap(p => [...p.leaves])) };
}
/** An init with all in it. */
function initItem(node, ways, above, detail, limit) {
  const below = new Map([...above].map(([later, before]) => [before, later])), items = [];
  for (const child of node.children) {
    if (above.has(child)) continue;
    const chain = [child];
    while (below.has(chain.at(-1))) chain.push(below.get(chain.at(-1)));
    const parts = chain.map(n => n.leaf ? leafItem(n, ways, detail) : initItem(n, ways, above, detail, limit - HEAD - PAD));
    items.push(parts.length > 1 ? chainItem(parts, detail) : parts[0]);
  }
  const owner = { node, items, links: [], leaves: new Set(items.flatMap(item => [...item.leaves])), parts: [] };
  arrange(owner, ways, detail, limit - HEAD - PAD);
  return owner;
}

/** Calls visit(item) for all items of a node in it and below it, outer ones first. */
function eachItem(item, visit) {
  visit(item);
  for (const inner of [...item.parts, ...item.columns?.flat() ?? []]) eachItem(inner, visit);
}
/** Moves an item and all in it to heights within the whole drawing. */
function placeDown(item, top) {
  Object.assign(item, { top, middle: top + item.height / 2 });
  for (const inner of [...item.parts, ...item.columns?.flat() ?? []]) placeDown(inner, top + inner.y);
}
/** The width of an item, that of an init from the widths of its columns and gaps. */
function widthOfItem(item, detail) {
  if (!item.columns) return item.width = item.parts.reduce((most, part) => Math.max(most, part.width), item.node ? item.width : 0);
  let x = PAD;
  item.gapsAt = [];
  item.columns.forEach((column, c) => {
    item.gapsAt.push(x);
    x += item.gaps[c];
    const span = column.reduce((most, inner) => Math.max(most, widthOfItem(inner, detail)), 0);
    for (const inner of column) {
      inner.x = x;
      for (const leaf of [inner, ...inner.parts]) leaf.span = span;
    }
    x += span;
  });
  item.gapsAt.push(x);
  return item.width = Math.max(detail.width, x + item.gaps.at(-1) + PAD);
}
/** Moves an item and all in it to places across the whole drawing. */
function placeAcross(item, left) {
  item.left = left;
  item.gapsAt = item.gapsAt?.map(x => left + x);
  for (const inner of item.parts) placeAcross(inner, left);
  for (const inner of item.columns?.flat() ?? []) placeAcross(inner, left + inner.x);
}

/** Columns and heights for one detail and one limit to the height of a column. */
function draftOf(nodes, above, detail, limit) {
  const ways = waysOf(nodes, above), root = initItem(nodes[0], ways, above, detail, limit), leaves = [], inits = [];
  for (const way of ways) enter(way);
  eachItem(root, item => {
    if (item.node?.leaf) leaves[item.node.number] = item;
    if (item.columns) inits.push(item);
  });
  return { detail, ways, root, leaves, inits };
}
/** All places of a draft, before the scale. */
function finish({ detail, ways, root, leaves, inits }) {
  for (const init of inits) settleColumns(init);
  placeDown(root, 0);
  levelWays(leaves, inits, ways, detail);
  giveGaps(ways, inits, detail);
  widthOfItem(root, detail);
}

/** Gives the strips for labels what is left of a frame's width. */
function widenStrips({ detail, leaves, root, scale }, frame) {
  const strips = leaves.filter(leaf => leaf.node.opens.length), own = strips.map(leaf => leaf.width);
  for (const more of [80, 60, 40, 20, 0]) {
    strips.forEach((leaf, i) => { leaf.width = own[i] + more; });
    if (widthOfItem(root, detail) * scale <= frame.width) break;
  }
}

/** Whether the leaves alone, without what is around them, are too large for a frame. */
function isTooLarge(nodes, detail, frame) {
  const leaf = n => (detail.width + (n.opens.length ? stripOf(n.opens, detail) : 0)) * Math.max(detail.height, n.opens.length * detail.port);
  return nodes.filter(n => n.leaf).reduce((sum, n) => sum + leaf(n), 0) * LEAST_READ ** 2 > frame.width * frame.height;
}

/** The largest boxes that one detail can have in a frame: the best of several limits to the height of a column. Undefined where it is below `least`. */
function bestOf(nodes, above, detail, frame, least) {
  let best;
  const scaleOf = (width, height) => Math.min(LARGEST, frame.width / width, frame.height / height);
  for (let limit = 100, more = 0; more < Infinity; limit = Math.max(1.12 * limit, limit + more + 0.5)) {
    const draft = draftOf(nodes, above, detail, limit), { root, inits } = draft;
    more = inits.reduce((less, init) => Math.min(less, init.more), Infinity);
    if (scaleOf(leastWidth(root, detail), root.height) < (best?.scale ?? least) - 1e-9) continue;
    finish(draft);
    const scale = scaleOf(root.width, root.height);
    if (!best || scale > best.scale - 1e-9) best = { ...draft, scale };         // of equal ones the one with the fewest columns
  }
  return best;
}

/**
 * The places of a tree inside a frame: the boxes of all nodes, by number; the ways of sessions, each with its points from client to server; the arrows `then`
 * from each leaf to the one that starts after it; and the room for the label of a way.
 */
function layout(nodes, frame) {
  const above = chained(nodes);
  let best;
  for (const plain of DETAILS) {
    const detail = widened(plain, nodes), least = plain.bundled ? 0 : plain.name === "least" ? LEAST_READ : SMALLEST;
    if (!plain.bundled && isTooLarge(nodes, detail, frame)) continue;
    best = bestOf(nodes, above, detail, frame, least);
    if (best?.scale >= least) break;
  }
  widenStrips(best, frame);
  return scaled(nodes, above, best, frame);
}

/** Whether boxes of a layout show enough, so that the time line can have what is left of the window. */
const showsEnough = ({ detail, scale }) => scale >= (detail === "short" ? 0.97 : SMALLEST) && detail !== "least";

/**
 * The layout for a window: that in the first of several frames, each higher than the one before, in which boxes show enough, else in the last one. If ways
 * would be bundled even there, the frame grows, and scrolls. They stay bundled where that would take too many screens. The frame then grows as far as boxes can
 * be read, in width too. Answers the layout with its `frame`, and the place of the frame that it is for.
 */
function layoutIn(nodes, frames) {
  let choice = 0, plan = layout(nodes, frames[0]);
  while (!showsEnough(plan) && choice + 1 < frames.length) plan = layout(nodes, frames[++choice]);
  const room = frames[choice], width = room.width - SCROLLBAR;
  if (!plan.bundled) return { ...plan, frame: room, choice };
  let read = plan.scale >= LEAST_READ ? { ...plan, frame: room } : undefined;
  for (let height = room.height; height < MOST_SCREENS * room.height || !read; height *= 1.25) {
    const frame = { width: width * Math.max(1, height / (MOST_SCREENS * room.height)), height: Math.ceil(height) }, grown = layout(nodes, frame);
    if (!grown.bundled && height < MOST_SCREENS * room.height) return { ...grown, frame, choice };
    if (!read && grown.scale >= LEAST_READ) read = { ...grown, frame };
  }
  return { ...read, choice };
}

/** A plan in pixels of the frame, in the middle of it. */
function scaled(nodes, above, { detail, ways, root, leaves, inits, scale }, frame) {
  const left = (frame.width - root.width * scale) / 2, top = (frame.height - root.height * scale) / 2, boxes = [];
  const at = ([x, y]) => [left + x * scale, top + y * scale];
  placeAcross(root, 0);
  for (const item of [...inits, ...leaves.filter(leaf => leaf)]) {
    const [x, y] = at([item.left, item.top]);
    boxes[item.node.number] = { node: item.node.number, x, y, width: (item.columns ? item.width : detail.width) * scale, height: item.height * scale };
  }
  const drawn = ways.map(way => ({ way, points: pointsOf(way, leaves, detail).map(at) }));
  const below = [...above].map(([later, before]) => {
    const from = boxes[before.number], to = boxes[later.number], x = from.x + 0.25 * from.width;
    return { client: before.number, server: later.number, points: [[x, from.y + from.height], [x, to.y]] };
  });
  const others = drawn.filter(d => d.way.kind === "after").map(({ way: { client, server }, points }) => ({ client, server, points }));
  const sessions = drawn.filter(d => d.way.kind === "session").map(({ way: { client, server, service }, points }) =>
    ({ client, server, service, points, room: (leaves[client].span - detail.width - 8) * scale }));
  return { detail: detail.name, bundled: detail.bundled === true, scale, boxes, ways: sessions, then: [...below, ...others] };
}
