"use strict";
// The ways of sessions between boxes. Pure functions over the items that layout.js has placed in columns; numbers are pixels before the scale.
//
// A way goes from the right side of its client to the left side of its server. It is level within a column, where a thin item keeps a place for it, and moves
// up or down in the gaps between columns, where it has a track of its own. So it crosses no box, and no two ways lie on one another.

/** What a gap keeps free at its left side, and at its right side, where the heads of arrows are. */
const GAP_LEFT = 7, GAP_RIGHT = 14;
/** Two heights that differ by less are one; two ways that are level nearer than this need tracks in order. */
const SAME = 0.01, NEAR = 2.5;
/** The part of their room that ways keep from one another at least. */
const CLOSE_BY = 0.7;

/** The items of a list by their keys, as a map from each key to its items in order. */
function groupedBy(list, keyOf) {
  const groups = new Map();
  for (const item of list) {
    const key = keyOf(item);
    if (groups.has(key)) groups.get(key).push(item); else groups.set(key, [item]);
  }
  return groups;
}
const mean = list => list.reduce((sum, value) => sum + value, 0) / list.length;

/**
 * Gives items, in their order, middles as near to their wishes as they can be without overlap: neighbours that would overlap share the mean of their
 * wishes.
 */
function settle(items) {
  const groups = [];
  let before = 0;
  for (const item of items) {
    groups.push({ sum: item.wish - before - item.room / 2, items: [item] });
    item.before = before;
    before += item.room;
    for (let last = groups.at(-1), other; (other = groups.at(-2)) && other.sum / other.items.length > last.sum / last.items.length; last = other) {
      groups.pop();
      other.sum += last.sum;
      other.items.push(...last.items);
    }
  }
  for (const { sum, items: members } of groups) for (const item of members) item.middle = sum / members.length + item.before + item.room / 2;
}

/** Settles items between two bounds; what has too little room there gets the same share each. */
function settleWithin(items, low, high) {
  const total = items.reduce((sum, item) => sum + item.room, 0), share = Math.min(1, (high - low) / total);
  for (const item of items) item.room *= share;
  settle(items);
  let least = low, most = high;
  for (const item of items) {
    item.middle = Math.max(item.middle, least + item.room / 2);
    least = item.middle + item.room / 2;
  }
  for (const item of [...items].reverse()) {
    item.middle = Math.min(item.middle, most - item.room / 2);
    most = item.middle - item.room / 2;
  }
}

/** The columns that a way passes between two columns: those between them or, where it has to go back, from the one to the other with both. */
function passedColumns(from, to) {
  const columns = [];
  if (to > from) for (let c = from + 1; c < to; c++) columns.push(c);
  else for (let c = from; c >= to; c--) columns.push(c);
  return columns;
}

/**
 * Leads each edge of an init through thin items in the columns that it passes. An edge without an end (to is -1) leaves the init at its right, and one without
 * a beginning (from is -1) comes into it at its left. A way gets the thin items as stations, and for each two stations the gap between them; those of an init
 * that it comes into stand in `entry`, since an init is led through after the inits in it.
 */
function lead(edges, items, owner, detail) {
  const { columns } = owner, shared = new Map();
  const thinOf = (column, way) => {
    const key = `${column} ${detail.bundled ? way.key : shared.size}`, own = shared.get(key);
    if (own) return own;
    const thin = { column, height: 0, room: detail.thin, links: [], parts: [] };
    shared.set(key, thin);
    columns[column].push(thin);
    return thin;
  };
  for (const { way, from, to } of edges) {
    let last = items[from];
    const link = item => {
      if (last) { last.links.push(item); item.links.push(last); }
      last = item;
    };
    if (from < 0) {
      const stations = [], gaps = [];
      for (let column = 0; column < items[to].column; column++) {
        stations.push(thinOf(column, way));
        gaps.push({ owner, index: column + 1, fromLeft: true, toLeft: false });
        link(stations.at(-1));
      }
      link(items[to]);
      way.entry = { stations: [...stations, ...way.entry.stations], gaps: [...gaps, ...way.entry.gaps] };
      continue;
    }
    const passed = passedColumns(last.column, to < 0 ? columns.length : items[to].column), back = to >= 0 && items[to].column <= last.column;
    for (const [i, column] of passed.entries()) {
      const thin = thinOf(column, way);
      way.stations.push(thin);
      way.gaps.push({ owner, index: back && i ? column + 1 : back ? last.column + 1 : column, fromLeft: !back || i === 0, toLeft: back });
      link(thin);
    }
    if (to < 0) continue;
    way.gaps.push({ owner, index: items[to].column, fromLeft: !back, toLeft: false });
    link(items[to]);
  }
}
/** Puts what a way passes in the inits that it comes into behind what it passes before. */
function enter(way) {
  way.stations.push(...way.entry.stations);
  way.gaps.push(...way.entry.gaps);
}

const middleOf = item => item.top + item.height / 2;
/** The height at which a way comes to the i-th of its gaps. */
const comesAt = ({ way, i }) => i ? way.stations[i - 1].middle : way.start;

/** For each init, for each of its gaps, all ways there, each with which of its gaps it is. */
function gapsOf(ways, inits) {
  const byGap = new Map(inits.map(init => [init, Array.from({ length: init.columns.length + 1 }, () => [])]));
  for (const way of ways) way.gaps.forEach(({ owner, index }, i) => byGap.get(owner)[index].push({ way, i }));
  return byGap;
}

/** The height nearest to a wish, between two bounds, that is not near to any at which another way comes to a gap; the wish where there is none. */
function clearOf(wish, [least, most], taken) {
  const isClear = y => y >= least && y <= most && taken.every(other => Math.abs(y - other) >= NEAR);
  if (isClear(wish)) return wish;
  const clear = taken.flatMap(other => [other - NEAR - SAME, other + NEAR + SAME]).filter(isClear);
  return clear.length ? clear.reduce((best, y) => Math.abs(y - wish) < Math.abs(best - wish) ? y : best) : wish;
}
/** The heights at which ways of other keys come to a gap from the left. */
const othersAt = (here, way, detail) =>
  here.filter(({ way: other, i }) => (detail.bundled ? other.key !== way.key : other !== way) && other.gaps[i].fromLeft).map(comesAt);

/** Gives each client's ways their heights at its right side, and each server's ways theirs at its left side; between them thin items come level with them. */
function levelWays(leaves, inits, ways, detail) {
  const { port, above, arrive } = detail, byGap = gapsOf(ways, inits), own = side => groupedBy(ways, way => way[side]);
  for (const [client, list] of own("client")) {
    const { top, height } = leaves[client], ports = list.map(way => ({ way, room: port, wish: way.stations[0]?.middle ?? middleOf(leaves[way.server]) }));
    settleWithin(ports.sort((a, b) => a.wish - b.wish), top, top + height);
    for (const { way, middle } of ports) way.start = middle + above - port / 2;
  }
  for (const init of [...inits].reverse()) init.columns.forEach((column, c) => straighten(column, byGap.get(init)[c], detail));
  for (const [server, list] of own("server")) {
    const { top, height } = leaves[server], shared = groupedBy(list, way => detail.bundled ? way.key : way);
    const ports = [...shared.values()].map(members => ({ members, room: arrive, wish: mean(members.map(w => w.stations.at(-1)?.middle ?? w.start)) }));
    settleWithin(ports.sort((a, b) => a.wish - b.wish), top + 3, top + height - 3);
    ports.forEach((one, k) => clearPort(one, [ports[k - 1], ports[k + 1]], [top + 3, top + height - 3], byGap, detail));
  }
}
/** Moves the end of ways at their server away from what comes level with it from elsewhere. */
function clearPort({ members: [way, ...more], middle, room }, [upper, lower], [top, bottom], byGap, detail) {
  const { owner, index } = way.gaps.at(-1) ?? {}, taken = owner ? othersAt(byGap.get(owner)[index], way, detail) : [];
  const bounds = [upper ? upper.members[0].finish + CLOSE_BY * room : top, lower ? lower.middle - CLOSE_BY * room : bottom];
  for (const one of [way, ...more]) one.finish = clearOf(middle, bounds, taken);
}

/**
 * Moves each thin item of a column to the height at which a way comes to it, as far as its neighbours let it, and away from what comes level with it from
 * elsewhere; \`here\` are all ways in the gap before the column.
 */
function straighten(column, here, detail) {
  const first = new Map();
  for (const one of here) if (!first.has(one.way.stations[one.i])) first.set(one.way.stations[one.i], one);
  column.forEach((thin, k) => {
    const comes = first.get(thin), upper = column[k - 1], lower = column[k + 1];
    if (!comes) return;
    const apart = other => (other.room + thin.room) / 2, close = other => apart(other) * (other.links && !other.leaves ? CLOSE_BY : 1);
    const least = upper ? upper.middle + apart(upper) : thin.middle, most = lower ? lower.middle - apart(lower) : thin.middle;
    const wish = most > least ? Math.max(least, Math.min(most, comesAt(comes))) : thin.middle;
    const bounds = [upper ? upper.middle + close(upper) : wish, lower ? lower.middle - close(lower) : wish];
    thin.middle = clearOf(wish, bounds, othersAt(here, comes.way, detail));
  });
}

/** All moves of a way up or down: { way, key, gap, from, to } each, heights in the order in which it goes. */
function movesOf(way, detail) {
  const heights = [way.start, ...way.stations.map(thin => thin.middle), way.finish];
  return way.gaps.map((gap, i) => ({ way, key: detail.bundled ? way.key : way, gap, from: heights[i], to: heights[i + 1] }));
}

const low = move => Math.min(...move.ends), high = move => Math.max(...move.ends);
const touch = (a, b) => low(a) < high(b) + NEAR && low(b) < high(a) + NEAR;
/** Whether a move has to stand left of another: it is level with it, and comes from the left or goes there, where the other does so at the right. */
const isBefore = (a, b) => a.lefts.some(y => b.rights.some(other => Math.abs(y - other) < NEAR));
/** The heights at which moves are level at the left of their gap, and at its right. */
function sidesOf(members) {
  const lefts = [], rights = [];
  for (const { gap, from, to } of members) {
    (gap.fromLeft ? lefts : rights).push(from);
    (gap.toLeft ? lefts : rights).push(to);
  }
  return { lefts, rights };
}

/**
 * Gives each move of a gap a track, from the left, and answers how many there are. Moves down stand the further left the lower they begin, moves up the higher
 * they begin, so that they cross one another as little as can be.
 */
function giveTracks(moves) {
  const waiting = groupsOf(moves), placed = [];
  for (const group of waiting) group.before = waiting.filter(other => other !== group && isBefore(other, group));
  while (waiting.length) {
    const free = waiting.findIndex(group => group.before.every(other => other.track !== undefined)), whole = waiting.findIndex(group => !group.rest);
    const [next] = waiting.splice(free >= 0 ? free : Math.max(0, whole), 1);
    if (free < 0 && !next.rest && next.members.every(move => move.to === next.members[0].to)) waiting.push(part(next, [...placed, ...waiting]));
    next.track = placed.reduce((most, other) => touch(next, other) ? Math.max(most, other.track + 1) : most, 0);
    placed.push(next);
    for (const move of next.members) move.track = next.track;
  }
  return placed.reduce((most, group) => Math.max(most, group.track + 1), 0);
}
/** Moves that share a track, in the order in which they are given one. */
function groupsOf(moves) {
  const groups = [...groupedBy(moves, move => move.key).values()].map(members => {
    const froms = members.map(m => m.from), tos = members.map(m => m.to), first = mean(froms);
    return { members, ...sidesOf(members), ends: [...froms, ...tos], down: mean(tos) >= first, first };
  }).filter(group => high(group) - low(group) > SAME);
  return groups.sort((a, b) => b.down - a.down || (a.down ? b.first - a.first : a.first - b.first));
}
/**
 * Parts a move that has to stand left of one that has to stand left of it: the way goes nearly as far as it has to, and the rest further right. Answers the
 * rest.
 */
function part(group, others) {
  const [{ to }] = group.members, taken = [to, ...others.flatMap(other => other.ends)];
  const room = y => taken.reduce((least, other) => Math.min(least, Math.abs(y - other)), NEAR);
  const steps = Array.from({ length: 41 }, (_, i) => (i % 2 ? i : -i) / 4);            // the nearest ones first
  const middle = steps.map(step => to + step).reduce((best, y) => room(y) > room(best) + SAME ? y : best);
  const before = [group, ...group.before], members = group.members.map(move => {
    const rest = { ...move, from: middle }, { moves } = move.way;
    moves.splice(moves.indexOf(move) + 1, 0, rest);
    move.to = middle;
    return rest;
  });
  Object.assign(group, { ends: [...group.members.map(move => move.from), middle], before: [] });
  return { members, lefts: [], rights: [to], ends: [middle, to], before, rest: true };
}

/** Gives all moves of all ways their tracks, and each gap of an init its width. */
function giveGaps(ways, inits, detail) {
  const moves = new Map(ways.map(way => [way, movesOf(way, detail)]));
  for (const way of ways) way.moves = [...moves.get(way)];
  for (const [init, gaps] of gapsOf(ways, inits)) {
    init.gaps = gaps.map((here, c) => {
      const tracks = giveTracks(here.map(({ way, i }) => moves.get(way)[i])), outer = c === 0 || c === gaps.length - 1;
      const wide = tracks ? GAP_LEFT + (tracks - 1) * detail.track + GAP_RIGHT : 0;
      return outer ? wide : Math.max(detail.between, wide);
    });
  }
}

/** The points of a way: its ends, and two for each move. */
function pointsOf(way, leaves, detail) {
  const from = leaves[way.client], points = [[from.left + detail.width, way.start]];
  for (const { gap, track, from: y, to } of way.moves) {
    if (track === undefined || Math.abs(y - to) <= SAME) continue;
    const x = gap.owner.gapsAt[gap.index] + GAP_LEFT + track * detail.track;
    points.push([x, y], [x, to]);
  }
  points.push([leaves[way.server].left, way.finish]);
  return points;
}
