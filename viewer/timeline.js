"use strict";
// The data of the time line: events on an axis, and what each column of pixels shows. Pure functions over a run (read.js, state.js).
//
// An axis is "event" (each event as wide) or "turn" (each turn as wide). A window is [from, to) on it.

const positionOf = (run, axis, event) => axis === "event" ? event : run.events.turn[event];
const wholeWindow = (run, axis) => [0, positionOf(run, axis, run.last) + 1];

/** The last event whose position is not above a number; the first where there is none. */
function eventAt(run, axis, position) {
  if (axis === "event") return Math.max(0, Math.min(run.last, Math.floor(position)));
  const { turn } = run.events;
  let low = 0, high = run.events.length;
  while (high - low > 1) {
    const middle = (low + high) >> 1;
    if (turn[middle] <= position) low = middle; else high = middle;
  }
  return low;
}

/** For each of `count` columns of a window the first and the last event that holds anywhere in it. */
function columnEvents(run, axis, [from, to], count) {
  const first = new Uint32Array(count), last = new Uint32Array(count);
  for (let x = 0; x < count; x++) {
    const left = from + (to - from) * x / count, right = from + (to - from) * (x + 1) / count;
    first[x] = eventAt(run, axis, left);
    last[x] = eventAt(run, axis, right);
    if (last[x] > first[x] && positionOf(run, axis, last[x]) >= right) last[x]--;
  }
  return { count, first, last };
}

/** Calls visit(x, low, high) for each column with the places in `rows` of the first and the last row that holds in it; low is -1 before the first row. */
function eachColumn(rows, eventOf, columns, visit) {
  let place = lastUpTo(rows, eventOf, columns.first[0]);
  for (let x = 0; x < columns.count; x++) {
    while (place + 1 < rows.length && eventOf[rows[place + 1]] <= columns.first[x]) place++;
    let high = place;
    while (high + 1 < rows.length && eventOf[rows[high + 1]] <= columns.last[x]) high++;
    visit(x, place, high);
    place = high;
  }
}

/** The least and the greatest value of a column of accounts in each column of pixels. */
function bandOf(run, node, field, columns) {
  const rows = run.accountRows.of(node), values = run.accounts[field], low = new Uint32Array(columns.count), high = new Uint32Array(columns.count);
  eachColumn(rows, run.accounts.event, columns, (x, from, to) => {
    let least = values[rows[from]], most = least;
    for (let i = from + 1; i <= to; i++) {
      const value = values[rows[i]];
      if (value < least) least = value; else if (value > most) most = value;
    }
    low[x] = least;
    high[x] = most;
  });
  return { low, high };
}

/** The server of a lane's session in each column of pixels (NOBODY for none), and the furthest stage that it has there. */
function laneOf(run, lane, columns) {
  const rows = run.laneRows.of(lane), t = run.sessions, server = new Uint16Array(columns.count).fill(NOBODY), stage = new Uint8Array(columns.count);
  eachColumn(rows, t.event, columns, (x, from, to) => {
    for (let i = Math.max(0, from); i <= to; i++) {
      const row = rows[i];
      if (t.stage[row] === GONE) continue;
      server[x] = t.server[row];
      if (t.stage[row] > stage[x]) stage[x] = t.stage[row];
    }
  });
  return { server, stage };
}

/** Runs [x, width] of neighbouring columns for which `same(x - 1, x)` holds, so that each is one rectangle. */
function runsOf(count, same) {
  const runs = [];
  for (let x = 0; x < count; x++) if (x && same(x - 1, x)) runs[runs.length - 1][1]++; else runs.push([x, 1]);
  return runs;
}

/** Marks of the axis at round numbers, at least `apart` columns from each other: { position, x, text }. */
function marksOf(run, axis, [from, to], count, apart) {
  const least = (to - from) * apart / count;
  let step = 1;
  for (let i = 0; step < least; i++) step = [1, 2, 5][(i + 1) % 3] * 10 ** Math.floor((i + 1) / 3);
  const marks = [];
  for (let position = Math.ceil(from / step) * step; position < to; position += step) {
    const turn = axis === "turn" ? position : run.events.turn[Math.min(run.last, position)];
    marks.push({ position, x: (position - from) / (to - from) * count, text: `turn ${grouped(turn)}` });
  }
  return marks;
}

/** A window of `span` around a position, moved so far that it stays inside the whole. */
function windowAround(run, axis, position, span) {
  const [low, high] = wholeWindow(run, axis), width = Math.max(Math.min(10, high - low), Math.min(high - low, span));
  const from = Math.max(low, Math.min(high - width, position - width / 2));
  return [from, from + width];
}

/** The places of all rows of the time line from above: { node, y, height }. Lanes of sessions stand below the band of their client. */
function rowPlaces(run, { top, band, lane }) {
  let y = top;
  return run.nodes.map(node => {
    const row = { node: node.number, y, height: band + (node.lanes.length ? node.lanes.length * lane + 2 : 0) };
    y += row.height;
    return row;
  });
}
