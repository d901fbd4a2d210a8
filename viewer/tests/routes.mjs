// What holds of the arrows of a layout: each check throws where it does not.
import assert from "node:assert/strict";
import { page as v } from "./load.mjs";

/**
 * The rooms that page.css leaves for the boxes in a window of each size, for each share of the height that the time line can have, with the most rows there.
 */
export const WINDOWS = {
  "1280 by 720": [[946, 223], [946, 274], [946, 331]],
  "1600 by 1000": [[1266, 393], [1266, 463], [1266, 543]],
  "2560 by 1440": [[2226, 635], [2226, 736], [2226, 851]],
};
export const framesOf = window => WINDOWS[window].map(([width, height]) => ({ width, height }));

const NEAR = 1e-6, SEEN = 0.05;
/** The segments of a line of points, with `at` the height or place where it is level or upright. */
function segmentsOf(points) {
  return points.slice(1).map(([x, y], i) => {
    const [fromX, fromY] = points[i], level = Math.abs(y - fromY) < SEEN, [a, b] = level ? [fromX, x] : [fromY, y];
    return { level, upright: Math.abs(x - fromX) < SEEN, at: level ? y : x, low: Math.min(a, b), high: Math.max(a, b) };
  });
}
const crosses = ({ level, at, low, high }, { x, y, width, height }) => {
  const [from, to, across, end] = level ? [y, y + height, x, x + width] : [x, x + width, y, y + height];
  return at > from + NEAR && at < to - NEAR && high > across + NEAR && low < end - NEAR;
};
const around = (nodes, node) => node === undefined ? [] : [node, ...around(nodes, nodes[node].parent?.number)];

/** No segment of an arrow crosses the interior of a box: of no leaf, and of no init but those around its two ends. */
export function checkBoxes(nodes, { boxes, ways, then }) {
  for (const { client, server, points } of [...ways, ...then]) {
    const own = new Set([...around(nodes, nodes[client].parent.number), ...around(nodes, nodes[server].parent.number)]);
    for (const segment of segmentsOf(points)) {
      assert.ok(segment.level || segment.upright, "an arrow is level or upright");
      for (const n of nodes) {
        assert.ok(own.has(n.number) || !crosses(segment, boxes[n.number]), `${nodes[client].label} to ${nodes[server].label} crosses ${n.label}`);
      }
    }
  }
}

/** No two arrows run on one another, but for bundled ones to the same server. */
export function checkApart({ ways, bundled, scale }) {
  const all = ways.flatMap(way => segmentsOf(way.points).filter(s => s.high - s.low > NEAR).map(s => ({ ...s, way })));
  for (const level of [true, false]) {
    const own = all.filter(s => s.level === level).sort((a, b) => a.at - b.at);
    own.forEach((a, i) => {
      for (let k = i + 1; k < own.length && own[k].at - a.at < 1.5 * scale; k++) {
        const b = own[k], same = a.way === b.way || bundled && a.way.server === b.way.server;
        const names = [a, b].map(s => `${s.way.client} to ${s.way.server}`);
        assert.ok(same || Math.min(a.high, b.high) - Math.max(a.low, b.low) < NEAR, `${names} run on one another at ${a.at}, ${b.at}`);
      }
    });
  }
}

/** Each way has room for its label right of its client: above its line, below the line and the label before it, and beside no box. */
export function checkLabels(nodes, { boxes, ways, scale, frame }) {
  for (const n of nodes) {
    const mine = ways.filter(w => w.client === n.number).sort((a, b) => a.points[0][1] - b.points[0][1]);
    mine.forEach(({ points: [[x, y]], room }, i) => {
      const label = { x: x + NEAR, y: y - 10.5 * scale, width: room, height: 10.5 * scale };
      assert.ok(room > 18 * scale, `${n.label} has room for some letters`);
      assert.ok(i === 0 || y - mine[i - 1].points[0][1] > 11.5 * scale, `the labels of ${n.label} stand apart`);
      assert.ok(x + room < frame.width && label.y > 0);
      for (const { node, ...box } of boxes) {
        const meets = label.x < box.x + box.width && box.x < label.x + label.width && label.y < box.y + box.height && box.y < label.y + label.height;
        assert.ok(!meets || !nodes[node].leaf, `a label of ${n.label} lies on ${nodes[node].label}`);
      }
    });
  }
}

/** Each leaf that starts after another has its arrow from that one, and no other leaf has one. */
export function checkThen(nodes, { then }) {
  const wanted = nodes.filter(n => n.after !== undefined).map(n => `${n.parent.children.find(c => c.name === n.after).number} ${n.number}`);
  assert.deepEqual(then.map(({ client, server }) => `${client} ${server}`).sort(), wanted.sort());
}

/** All of it, for a tree in a window. */
export function checkRoutes(nodes, window) {
  const plan = v.layoutIn(nodes, framesOf(window));
  for (const [x, y] of [...plan.ways, ...plan.then].flatMap(w => w.points)) assert.ok(x > 0 && y > 0 && x < plan.frame.width && y < plan.frame.height);
  assert.ok(plan.scale > 0.8, "boxes can be read");
  checkBoxes(nodes, plan);
  checkApart(plan);
  checkLabels(nodes, plan);
  checkThen(nodes, plan);
  return plan;
}
