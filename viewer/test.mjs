// node --test test.mjs
//
// Tests of the page's functions over the pairs of texts in tests/ and over generated ones. VIEWER_DATA names further folders, parted by colons: of pairs
// NAME.tree and NAME.trace, or of folders NAME-tree, NAME-trace and NAME-trace-all with the texts in a file `stdout`.
import assert from "node:assert/strict";
import { spawnSync } from "node:child_process";
import { chmodSync, existsSync, mkdtempSync, readdirSync, readFileSync, rmSync, writeFileSync } from "node:fs";
import { tmpdir } from "node:os";
import { join } from "node:path";
import test from "node:test";
import { gunzipSync } from "node:zlib";
import { generate, nestedTree } from "./tests/generate.mjs";
import { page as v, viewer } from "./tests/load.mjs";
import { checkApart, checkBoxes, checkLabels, checkRoutes, checkThen, framesOf, WINDOWS } from "./tests/routes.mjs";

const PHASES = ["pending", "running", "blocked", "serving", "handling", "exited"];
const text = path => readFileSync(path, "utf8");

/** The pairs of a folder in either form: { name, tree, trace }. */
function pairsOf(folder) {
  const entries = readdirSync(folder), pairs = [];
  for (const entry of entries.filter(e => e.endsWith(".trace"))) {
    const name = entry.slice(0, -6);
    pairs.push({ name, tree: text(join(folder, `${name}.tree`)), trace: text(join(folder, entry)) });
  }
  for (const entry of entries.filter(e => /-trace(-all)?$/.test(e))) {
    const tree = join(folder, entry.replace(/-trace(-all)?$/, "-tree"), "stdout");
    if (existsSync(tree)) pairs.push({ name: entry, tree: text(tree), trace: text(join(folder, entry, "stdout")) });
  }
  return pairs;
}
const folders = [join(viewer, "tests"), ...(process.env.VIEWER_DATA ?? "").split(":").filter(f => f)];
const generated = [[1, 200], [2, 400], [5, 1500], [12, 2000], [64, 4000]].flatMap(([leaves, turns]) =>
  [false, true].map(all => ({ name: `generated, ${leaves} leaves${all ? ", all steps" : ""}`, ...generate({ leaves, turns, all, rounds: 40 }) })));
const pairs = [...folders.flatMap(pairsOf), ...generated];

/** Another reading of a trace, by expressions and line by line: calls visit(accounts, sessions, k) after each event with all that holds then. */
function replay(tree, trace, visit) {
  const accounts = new Map(), sessions = new Map(), path = [];
  for (const line of tree.split("\n").filter(l => l && !/^ *(?:opens \S+ of|offers \S+ from) /.test(l))) {
    const [, indent, name, rest] = /^( *)(\S+) (.*)$/.exec(line), number = word => Number(new RegExp(`(?:^| )${word} (\\d+)`).exec(rest)?.[1] ?? 0);
    path.length = indent.length / 2;
    path.push(name);
    const leaf = !/^quantum \d+ left/.test(rest), waits = / after \S+ (?:own|inputs|signals)/.test(rest), left = / caps \d+ left (\d+)/.exec(rest);
    const quota = leaf ? waits ? 0 : number("quantum") : number("left"), caps = leaf ? waits ? 0 : number("caps") : Number(left?.[1] ?? 0);
    const phase = leaf ? waits ? "pending" : "running" : "";
    accounts.set(path.join(" -> "), { quota, used: 0, caps, taken: 0, steps: 0, budget: leaf ? number("steps") : 0, phase });
  }
  let k = 0;
  for (const line of trace.split("\n").filter(l => l)) {
    const account = /^account (.*?) quota (\d+)(?: used (\d+))?(?: caps (\d+))?(?: taken (\d+))?(?: steps (\d+)\/(\d+) (\w+))?$/.exec(line);
    const session = /^session (\d+) (\S+) of (.*) for (.*) at level (\d) lends (\d+)(?: caps (\d+))?(?:, (.*) (waits|at hand))?$/.exec(line);
    if (/^turn |^end after |^input |^signal /.test(line)) visit(accounts, sessions, k++);
    else if (account) {
      const [quota, used, caps, taken, steps, budget] = account.slice(2, 8).map(digits => Number(digits ?? 0));
      accounts.set(account[1], { quota, used, caps, taken, steps, budget, phase: account[8] ?? "" });
    } else if (session) {
      const number = Number(session[1]), [service, server, client] = session.slice(2, 5);
      const [level, lends, caps] = session.slice(5, 8).map(digits => Number(digits ?? 0));
      sessions.set(number, { number, service, server, client, level, lends, caps, stage: session[9] ?? "idle", request: session[8] ?? "" });
    } else if (line.startsWith("session ")) sessions.delete(+/^session (\d+) ends$/.exec(line)[1]);
    else assert.ok(line.startsWith("["), line);
  }
  visit(accounts, sessions, k);
}

const without = (object, ...fields) => Object.fromEntries(Object.entries(object).filter(([name]) => !fields.includes(name)));
/** A state in the form of `replay`. */
function plain(run, state) {
  const label = node => run.nodes[node].label;
  const accounts = state.accounts.map((a, node) => [label(node), without(run.nodes[node].leaf ? a : { ...a, phase: "" }, "row")]);
  return [accounts, state.sessions.map(s => ({ ...without(s, "row"), server: label(s.server), client: label(s.client), stage: v.STAGES[s.stage] }))];
}

const inside = (a, b) => a.x >= b.x - 1e-6 && a.y >= b.y - 1e-6 && a.x + a.width <= b.x + b.width + 1e-6 && a.y + a.height <= b.y + b.height + 1e-6;
const meet = (a, b) => a.x < b.x + b.width && b.x < a.x + a.width && a.y < b.y + b.height && b.y < a.y + a.height;
function checkLayout(nodes, frame) {
  const { boxes, ways } = v.layout(nodes, frame), whole = { x: 0, y: 0, ...frame };
  assert.equal(boxes.length, nodes.length);
  for (const n of nodes) {
    const box = boxes[n.number];
    assert.ok(box.width > 0 && box.height > 0 && inside(box, whole), `${n.label} lies in the frame`);
    if (n.parent) assert.ok(inside(box, boxes[n.parent.number]), `${n.label} lies in its init`);
    for (const other of nodes.slice(0, n.number)) {
      const around = [];
      for (let up = n.parent; up; up = up.parent) around.push(up);
      assert.ok(around.includes(other) ? inside(box, boxes[other.number]) : !meet(box, boxes[other.number]), `${n.label} and ${other.label}`);
    }
  }
  assert.equal(ways.length, nodes.reduce((sum, n) => sum + n.opens.length, 0));
  for (const { points, client, server } of ways) {
    const [[x, y]] = points, [toX, toY] = points.at(-1), from = boxes[client], to = boxes[server];
    assert.ok(Math.abs(x - from.x - from.width) < 1e-6 && y > from.y && y < from.y + from.height, "a way begins at its client");
    assert.ok(Math.abs(toX - to.x) < 1e-6 && toY > to.y && toY < to.y + to.height, "and ends at its server");
  }
}

/** Whether a leaf that is handling, or blocked in it, handles a signal, and no request. */
function reacts(run, node, event) {
  const rows = run.accountRows.of(node).filter(row => run.accounts.event[row] <= event), isServing = row => PHASES[run.accounts.phase[row]] === "serving";
  const begun = rows[rows.findLastIndex(isServing) + 1];
  return rows.some(isServing) && begun !== undefined && v.SECTIONS[run.events.section[run.accounts.event[begun]]].startsWith("on ");
}

/** What holds of accounts and sessions together. */
function checkState(run, state, before) {
  const { nodes } = run, sum = field => state.accounts.reduce((total, a) => total + a[field], 0);
  assert.equal(sum("quota"), nodes[0].quantum);
  assert.equal(sum("caps"), nodes[0].caps ?? 0);
  for (const { number, leaf, quantum, caps } of nodes) {
    const account = state.accounts[number], mine = state.sessions.filter(s => s.client === number), theirs = state.sessions.filter(s => s.server === number);
    assert.ok(account.used <= account.quota && account.taken <= account.caps);
    if (!leaf || account.phase === "pending" || account.phase === "exited") continue;
    const moved = field => theirs.reduce((t, s) => t + s[field], 0) - mine.reduce((t, s) => t + s[field], 0);
    assert.equal(account.quota, quantum + moved("lends"));
    assert.equal(account.caps, (caps ?? 0) + moved("caps"));
    assert.equal(mine.filter(s => s.request).length, Number(account.phase === "blocked"), "who is blocked has one request");
    const hand = theirs.filter(s => v.STAGES[s.stage] === "at hand").length;
    if (reacts(run, number, state.event)) assert.equal(hand, 0, "who handles a signal has no request at hand");
    else if (account.phase !== "blocked") assert.equal(hand, Number(account.phase === "handling"), "who handles else has one");
    else assert.ok(hand <= 1);
  }
  const numbers = before.map(s => s.number);
  for (const s of state.sessions.filter(o => !numbers.includes(o.number))) {
    assert.deepEqual([s.level, s.request, v.STAGES[s.stage]], [0, "open", "waits"], "a session begins with its open");
    for (let lower = 0; lower < s.number; lower++) assert.ok(numbers.includes(lower), "and has the lowest free number");
  }
}

for (const { name, tree, trace } of pairs) {
  const nodes = v.readTree(tree), run = v.readTrace(trace, nodes);

  test(`${name}: at each event the state is that of a replay from the start`, () => {
    let events = 0;
    replay(tree, trace, (accounts, sessions, k) => {
      assert.deepEqual(plain(run, v.stateAt(run, k)), [[...accounts], [...sessions.values()].sort((a, b) => a.number - b.number)]);
      events = k + 1;
    });
    assert.equal(run.last + 1, events);
  });

  test(`${name}: the state at the end is the account lines of the trace`, () => {
    const lines = trace.split("\n").filter(l => l).slice(-nodes.length), end = v.stateAt(run, run.last), before = v.stateAt(run, run.last - 1);
    assert.deepEqual(end.accounts.map((a, node) => v.accountLine(run, node, a)), lines);
    const steady = state => state.accounts.map(a => without(a, "row", "steps", "budget"));
    assert.deepEqual(steady(before), steady(end));
    assert.deepEqual(before.sessions, end.sessions);
  });

  test(`${name}: at each event accounts and sessions fit together, and the event is put in words`, () => {
    let before = [];
    for (let k = 0; k <= run.last; k++) {
      const state = v.stateAt(run, k);
      checkState(run, state, before);
      before = state.sessions;
      const changes = [...v.accountChanges(run, k).map(c => v.changeWords(run, c)), ...v.sessionChanges(run, k).map(c => v.sessionWords(run, c))];
      for (const word of [...v.sentence(run, k).map(part => part.code ?? part), ...changes]) assert.ok(word && !/undefined|null|NaN|Infinity/.test(word), word);
    }
  });

  test(`${name}: the lines are those of the trace`, () => {
    const shown = Array.from({ length: v.linesUpTo(run, run.last) }, (_, i) => `[${nodes[run.lines.leaf[i]].label}] ${v.lineText(run, i)}`);
    assert.deepEqual(shown, trace.split("\n").filter(l => l.startsWith("[")));
  });

  test(`${name}: boxes lie in their inits and apart`, () => {
    for (const [width, height] of [[1064, 340], [1064, 560], [1400, 900], [300, 200]]) checkLayout(nodes, { width, height });
  });

  test(`${name}: at each size of the window no arrow runs behind a box or on another one, and each has its label`, () => {
    for (const window of Object.keys(WINDOWS)) checkRoutes(nodes, window);
  });

  test(`${name}: servers whose sessions one client holds have different colours`, () => {
    for (const { opens } of nodes) {
      const servers = new Set(opens.map(o => o.server));
      assert.equal(new Set([...servers].map(server => run.colours.get(server))).size, servers.size);
    }
  });

  test(`${name}: the peak of a component is the first event at which it holds most`, () => {
    for (const { number, leaf } of nodes) for (const [kind, field] of [["bytes", leaf ? "used" : "quota"], ["caps", leaf ? "taken" : "caps"]]) {
      const held = Array.from({ length: run.last + 1 }, (_, k) => v.accountAt(run, number, k)[field]), peak = v.peakOf(run, number, kind);
      assert.equal(peak, held.indexOf(held.reduce((most, value) => Math.max(most, value))));
    }
  });

  test(`${name}: each column of the time line has the least and the greatest of its events`, () => {
    for (const axis of ["event", "turn"]) for (const count of [3, 50, 700]) {
      const [low, high] = v.wholeWindow(run, axis), view = count === 50 ? v.windowAround(run, axis, high / 3, (high - low) / 4) : [low, high];
      const columns = v.columnEvents(run, axis, view, count);
      const first = axis === "event" ? 0 : run.events.turn.subarray(0, run.events.length).lastIndexOf(0);  // settings before the first turn
      if (count !== 50) assert.deepEqual([columns.first[0], columns.last[count - 1]], [first, run.last]);
      const node = nodes.at(-1).number, band = v.bandOf(run, node, "quota", columns);
      for (let x = 0; x < count; x++) {
        const values = [];
        for (let k = columns.first[x]; k <= columns.last[x]; k++) values.push(v.accountAt(run, node, k).quota);
        assert.deepEqual([band.low[x], band.high[x]], [Math.min(...values), Math.max(...values)]);
      }
    }
  });
}

test("each session has a bar of its own while it is open, and the bars of a client are those of its sessions", () => {
  const { tree, trace } = generate({ leaves: 12, turns: 3000 }), nodes = v.readTree(tree), run = v.readTrace(trace, nodes), columns = { count: run.last + 1 };
  columns.first = columns.last = Uint32Array.from({ length: columns.count }, (_, k) => k);
  const bars = nodes.map(n => n.lanes.map(lane => v.laneOf(run, lane, columns)));
  for (let k = 0; k <= run.last; k++) {
    const state = v.stateAt(run, k);
    for (const n of nodes) {
      const shown = bars[n.number].filter(b => b.server[k] !== v.NOBODY).map(b => `${b.server[k]} ${b.stage[k]}`).sort();
      assert.deepEqual(shown, state.sessions.filter(s => s.client === n.number).map(s => `${s.server} ${s.stage}`).sort());
    }
  }
});

test("a tree as large as any: 64 leaves, inits four deep, names of sixteen bytes", () => {
  const lines = ["init quantum 67108864 left 0"], name = (kind, i) => `${kind}${String(i).padStart(15, "0")}`;
  for (let i = 0; i < 16; i++) {
    for (let depth = 1; depth <= 3; depth++) lines.push(`${"  ".repeat(depth)}${name("i", 4 * i + depth)} quantum 4096 left 0`);
    const server = ["init", name("i", 4 * i + 1), name("i", 4 * i + 2), name("i", 4 * i + 3), name("l", 4 * i)].join(" -> ");
    lines.push(`        ${name("l", 4 * i)} quantum 4096 provides ${name("s", i)} own 0 steps 1`);
    for (let j = 1; j < 4; j++) lines.push(`        ${name("l", 4 * i + j)} quantum 4096 own 0 steps 1`, `          opens ${name("s", i)} of ${server}`);
  }
  for (const frame of [{ width: 1064, height: 340 }, { width: 1400, height: 900 }]) checkLayout(v.readTree(lines.join("\n")), frame);
  const flat = ["init quantum 67108864 left 0", ...Array.from({ length: 64 }, (_, i) => `  ${name("l", i)} quantum 4096 own 0 steps 1`)];
  checkLayout(v.readTree(flat.join("\n")), { width: 1064, height: 340 });
});

test("larger systems of the generator: at each size of the window no arrow runs behind a box or on another one", () => {
  for (const [leaves, seed] of [[15, 1], [15, 2], [24, 3], [24, 4], [40, 5], [40, 6], [64, 7], [64, 8]]) {
    const nodes = v.readTree(generate({ leaves, seed, turns: 10 }).tree);
    for (const window of Object.keys(WINDOWS)) checkRoutes(nodes, window);
  }
});

test("random systems, inits three deep: at each size of the window no arrow runs behind a box or on another one", () => {
  for (let seed = 1; seed <= 60; seed++) for (const window of Object.keys(WINDOWS)) checkRoutes(v.readTree(nestedTree(seed)), window);
});

test("random systems whose inits offer services: arrows come into inits, none behind a box or on another one", () => {
  let entering = 0;
  for (let seed = 1; seed <= 36; seed++) {
    const nodes = v.readTree(nestedTree(seed, true)), isAround = (init, node) => node !== undefined && (node === init || isAround(init, node.parent));
    entering += nodes.flatMap(n => n.opens.filter(o => !isAround(nodes[o.server].parent, n))).length;
    for (const window of Object.keys(WINDOWS)) checkRoutes(nodes, window);
  }
  assert.ok(entering > 100);
});

const logServer = v.readTree(text(join(viewer, "tests", "log_server.tree")));
test("fifteen leaves, eleven of which use one server: each arrow is a line of its own, and nothing scrolls", () => {
  const log = logServer.find(n => n.provides === "log").number;
  assert.equal(logServer.filter(n => n.leaf).length, 15);
  assert.equal(logServer.filter(n => n.opens.some(o => o.server === log)).length, 11);
  for (const window of Object.keys(WINDOWS)) {
    const plan = checkRoutes(logServer, window), frames = framesOf(window);
    assert.deepEqual([plan.bundled, plan.frame], [false, frames[plan.choice]]);
    const ends = plan.ways.filter(w => w.server === log).map(w => w.points.at(-1)[1]).sort((a, b) => a - b);
    ends.slice(1).forEach((y, i) => assert.ok(y - ends[i] > 3, "eleven heads of arrows stand apart"));
  }
});

test("the checks of arrows find what is wrong", () => {
  const window = "1280 by 720", fresh = () => structuredClone(v.layoutIn(logServer, framesOf(window))), [first] = fresh().ways;
  const fails = (check, change) => {
    const plan = fresh();
    change(plan);
    assert.throws(() => check(plan), assert.AssertionError);
  };
  const boxes = plan => checkBoxes(logServer, plan), [level, stats] = ["player", "stats"].map(name => logServer.find(n => n.name === name).number);
  fails(boxes, ({ ways }) => { ways[0].points = [first.points[0], first.points.at(-1)]; });
  fails(boxes, ({ ways, boxes: all }) => {
    const way = ways.find(w => w.client === level), { x, y } = all[stats];
    way.points = [way.points[0], [x + 1, way.points[0][1]], [x + 1, y + 300], way.points.at(-1)];
  });
  fails(boxes, ({ boxes: all, ways }) => { [all[stats].x, all[stats].y] = [ways[3].points[1][0] - 9, ways[3].points[1][1] - 9]; });
  fails(checkApart, ({ ways }) => { ways[1].points = ways[2].points; });
  fails(plan => checkLabels(logServer, plan), ({ ways }) => { ways[2].room = 900; });
  fails(plan => checkLabels(logServer, plan), ({ ways }) => { ways[3].points[0] = ways[2].points[0]; });
  fails(plan => checkThen(logServer, plan), plan => { plan.then = []; });
});

test("a leaf that provides a service and starts after another has its arrow among the ways", () => {
  const tree = ["init quantum 81920 left 0", "  a quantum 4096 own 0 steps 1", "    opens late of init -> b",
    "  b quantum 4096 provides late after a own 0 steps 1", "  c quantum 4096 after a own 0 steps 1",
    "  d quantum 4096 after c own 0 steps 1", "  e quantum 4096 own 0 steps 1", "    opens late of init -> b"];
  const nodes = v.readTree(tree.join("\n"));
  for (const window of Object.keys(WINDOWS)) {
    const { then, boxes } = checkRoutes(nodes, window);
    for (const { client, server } of then.filter(t => t.server !== 2)) assert.ok(boxes[client].x === boxes[server].x && boxes[client].y < boxes[server].y);
  }
});

test("a way goes round where what it opens is no column further right", () => {
  const tree = ["init quantum 81920 left 0", "  a quantum 4096 provides x own 0 steps 1", "    opens y of init -> b",
    "  b quantum 4096 provides y own 0 steps 1", "    opens x of init -> a", "  c quantum 4096 own 0 steps 1", "    opens x of init -> a"];
  for (const window of Object.keys(WINDOWS)) checkRoutes(v.readTree(tree.join("\n")), window);
});

/** Red, green and blue of `#rrggbb` or of `hsl(h s% l%)`. */
function rgbOf(colour) {
  const hex = /^#(..)(..)(..)$/.exec(colour);
  if (hex) return hex.slice(1).map(digits => parseInt(digits, 16) / 255);
  const [h, s, l] = /^hsl\(([\d.]+) ([\d.]+)% ([\d.]+)%\)$/.exec(colour).slice(1).map(Number);
  return [0, 8, 4].map(n => {
    const k = (n + h / 30) % 12;
    return l / 100 - s / 100 * Math.min(l / 100, 1 - l / 100) * Math.max(-1, Math.min(k - 3, 9 - k, 1));
  });
}
/** How far two colours look apart, by OKLab: 0 for the same, 1 for black and white. */
function apart(one, other) {
  const lab = colour => {
    const [r, g, b] = rgbOf(colour).map(c => c <= 0.04045 ? c / 12.92 : ((c + 0.055) / 1.055) ** 2.4);
    const [l, m, s] = [[0.4122, 0.5363, 0.0514], [0.2119, 0.6807, 0.1074], [0.0883, 0.2817, 0.63]].map(([x, y, z]) => Math.cbrt(x * r + y * g + z * b));
    return [0.2105 * l + 0.7936 * m - 0.0041 * s, 1.978 * l - 2.4286 * m + 0.4506 * s, 0.0259 * l + 0.7828 * m - 0.8087 * s];
  };
  const [a, b] = [lab(one), lab(other)];
  return Math.hypot(...a.map((value, i) => value - b[i]));
}
/** The colours of page.css by their names, for one theme. */
function themeOf(selector) {
  const css = text(join(viewer, "page.css")), block = css.slice(css.indexOf(`${selector} {`)).split("}")[0];
  return Object.fromEntries([...block.matchAll(/--(\w+): (#\w{6})/g)].map(m => [m[1], m[2]]));
}

test("no server has the colour of a phase or of another server, in either theme", () => {
  const light = themeOf(":root"), phases = ["running", "blocked", "serving", "handling", "pending", "exited"];
  for (const theme of [light, { ...light, ...themeOf(":root.dark") }]) {
    const servers = Object.keys(theme).filter(name => /^server\d$/.test(name));
    assert.equal(servers.length, 8);
    for (const [i, server] of servers.entries()) {
      assert.equal(v.colourValue(i), `var(--${server})`);
      for (const other of [...phases, ...servers.slice(0, i)]) assert.ok(apart(theme[server], theme[other]) > 0.12, `${server} and ${other}`);
    }
    const further = Array.from({ length: 55 }, (_, i) => v.colourValue(8 + i));
    assert.equal(new Set(further).size, 55);
    for (const colour of further) for (const phase of phases) assert.ok(apart(colour, theme[phase]) > 0.05, `${colour} and ${phase}`);
  }
});

test("a client of all servers that there can be: each has a colour of its own", () => {
  const lines = ["init quantum 4096 left 0"];
  for (let i = 0; i < 63; i++) lines.push(`  s${i} quantum 0 provides p${i} own 0 steps 1`);
  lines.push("  all quantum 4096 own 0 steps 1", ...Array.from({ length: 63 }, (_, i) => `    opens p${i} of init -> s${i}`));
  const nodes = v.readTree(lines.join("\n")), colours = v.coloursOf(nodes);
  assert.equal(new Set(colours.values()).size, 63);
  const apartOnly = v.coloursOf(v.readTree(lines.slice(0, 17).join("\n"))), shares = [...apartOnly.values()];
  assert.deepEqual([0, 7].map(colour => shares.filter(c => c === colour).length), [2, 2], "servers without a common client share the eight colours evenly");
});

test("labels are as long as there is room for", () => {
  const measure = label => 6 * label.length, labelled = (level, stage, request) => ({ level, stage: v.STAGES.indexOf(stage), request });
  assert.equal(v.shortened("file_system", 66, measure), "file_system");
  assert.equal(v.shortened("file_system", 65, measure), "file_syst…");
  assert.equal(v.shortened("file_system", 12, measure), "f…");
  assert.equal(v.shortened("file_system", 11, measure), "");
  assert.deepEqual(v.labelsOf("log", 0, undefined), ["log"]);
  assert.deepEqual(v.labelsOf("log", 1, labelled(2, "idle", "")), ["log L2", "log", "log"]);
  const long = ["3 × log L0 call 0 at hand", "3 × log call 0 at hand", "3 × log call 0", "3 × log", "log"];
  assert.deepEqual(v.labelsOf("log", 3, labelled(0, "at hand", "call 0")), long);
  for (let room = 6; room < 200; room++) {
    const texts = v.labelsOf("database", 2, labelled(1, "waits", "up 1")), shown = v.firstOf(texts, room, measure);
    assert.ok(measure(shown) <= room);
    const fits = texts.find(label => measure(label) <= room);
    assert.ok(fits === undefined ? "database".startsWith(shown.replace("…", "")) : shown === fits);
  }
});

test("the address has the event at the cursor", () => {
  for (const event of [0, 1, 77, 280]) assert.equal(v.eventIn(v.fragmentOf(event), 280), event);
  const cases = [["", 0], ["#", 0], ["#event=", 0], ["#event=x", 0], ["#event=-3", 0], ["#event=7.9", 7], ["#event=281", 280], ["#event=1e99", 280],
    ["#other=5", 0], ["#other=5&event=6", 6], ["#event=NaN", 0], ["#event=Infinity", 280]];
  for (const [fragment, event] of cases) assert.equal(v.eventIn(fragment, 280), event, fragment);
});

test("the help has all keys and the address", () => {
  const html = text(join(viewer, "page.html")), script = text(join(viewer, "page.js")), help = html.slice(html.indexOf('<dialog id="help">'));
  const shown = { ArrowLeft: "←", ArrowRight: "→", ArrowUp: "↑", ArrowDown: "↓", PageUp: "Page up", PageDown: "Page down" };
  const [, keys] = /const KEYS = \{([^}]*)\}/.exec(script);
  for (const [, quoted, plain] of keys.matchAll(/(?:"([^"]+)"|(\w+)): "/g)) {
    const key = quoted ?? plain, name = { ...shown, "-": "−", "=": "+" }[key] ?? key;
    assert.ok(key === "?" || help.includes(name), key);
  }
  for (const button of [...html.matchAll(/data-do="(\w+)"/g)]) assert.match(script, new RegExp(`\\b${button[1]}[:,]`));
  assert.match(help, /#event=N/);
  assert.match(html, /data-do="most"/);
});

test("names that are words of the formats, carriage returns, lines that look like others", () => {
  const tree = ["init quantum 12288 left 4096", "  opens quantum 4096 own 0 steps 2", "    opens quantum of init -> main",
    "  main quantum 0 provides quantum own 0 steps 9", "  up quantum 4096 after opens own 0 steps 1"];
  const nodes = v.readTree(tree.join("\r\n"));
  assert.deepEqual(nodes.map(n => n.label), ["init", "init -> opens", "init -> main", "init -> up"]);
  assert.deepEqual(nodes[1].opens, [{ service: "quantum", label: "init -> main", server: 2 }]);
  const trace = ["turn 1 init -> main main at 1", 'turn 3 init -> opens main at 1 say "] -> call o0"', "[init -> opens] ] -> end after 1 turns",
    "session 0 ends of init -> main for init -> opens at level 3 lends 1, close 3 at hand", "session 0 ends", "end after 4 turns", "account init quota 4096",
    "account init -> opens quota 4096 used 0 steps 1/2 running", "account init -> main quota 0 used 0 steps 1/9 serving",
    "account init -> up quota 0 used 0 steps 0/1 pending"];
  const run = v.readTrace(trace.join("\r\n"), nodes);
  assert.equal(v.lineText(run, 0), "] -> end after 1 turns");
  assert.deepEqual(v.sentence(run, 2), ["opens in main at 1: ", { code: 'say "] -> call o0"' }, ": writes a line"]);
  assert.deepEqual([run.last, run.turns, v.nextOf(run, 2, 0, 1), v.nextOf(run, 2, 3, -1)], [3, 4, 3, 0]);
});

test("services that inits offer: routes lead through offers alone, and an offer names a child", () => {
  const tree = (outer, inner) => v.readTree(["init quantum 65536 left 0", "  hw quantum 8192 left 0", `    offers echo from ${outer}`,
    "    nic quantum 8192 left 0", `      offers ${inner} from srv`, "      srv quantum 4096 provides echo own 0 steps 1",
    "  cli quantum 4096 own 0 steps 1", "    opens echo of init -> hw -> nic -> srv"].join("\n"));
  const nodes = tree("nic", "echo");
  assert.deepEqual(nodes.map(n => n.offers), [[], [{ service: "echo", child: "nic" }], [{ service: "echo", child: "srv" }], [], []]);
  assert.equal(nodes[4].opens[0].server, 3);
  assert.throws(() => tree("srv", "echo"), /line 3/);
  assert.throws(() => tree("nic", "log"), /line 8/);
  assert.throws(() => v.readTree("init quantum 4096 left 0\n  offers echo from a\n  a quantum 4096 own 0 steps 1\n"), /line 2/);
  assert.throws(() => v.readTree("init quantum 4096 left 0\n  a quantum 4096 own 0 steps 1\n    offers echo from a\n"), /line 3/);
});

test("texts that are none are refused with their line", () => {
  const tree = "init quantum 8192 left 4096\n  a quantum 4096 own 0 steps 9\n", nodes = v.readTree(tree);
  const end = "end after 1 turns\naccount init quota 4096\naccount init -> a quota 4096 used 0 steps 0/9 running\n";
  assert.equal(v.readTrace(end, nodes).last, 1);
  const refuses = (read, message) => assert.throws(read, fault => fault instanceof v.Malformed && message.test(fault.message), String(message));
  const trees = [
    ["", /empty/], ["trade: S5 NameTwice a\n", /tree, line 1: trade: S5/], [`${tree}      b quantum 1 own 0 steps 1\n`, /line 3/],
    [`${tree}  a quantum 0 own 0 steps 1\n`, /twice/], [`${tree}    opens x of init -> b\n`, /line 3/],
    [`${tree}    opens x of init -> a\n`, /line 3/], [`${tree}    opens x of init\n`, /line 3/], [`${tree}init quantum 1 left 1\n`, /line 3/],
  ];
  for (const [bad, message] of trees) refuses(() => v.readTree(bad), message);
  const traces = [
    ["", /stops/], [end.slice(0, -60), /line 2/], [end.split("account init ->")[0], /stops/], [`${end}turn 1 init -> a main at 1\n`, /line 4/],
    [`turn 1 init -> b main at 1\n${end}`, /trace, line 1: turn 1 init -> b/], [`\nturn 1 init -> a up 4 at 1\n${end}`, /line 2/],
    [`account init -> a quota -1 used 0 steps 0/9 running\n${end}`, /line 1/], [`session 99999999 ends\n${end}`, /line 1/],
    [`account init quota 1 caps 1\n${end}`, /line 1/], [end.replace("init -> a", "init"), /line 3/],
  ];
  for (const [bad, message] of traces) refuses(() => v.readTrace(bad, nodes), message);
});

test("texts that are changed anywhere are read or refused, and never end in another fault", () => {
  let seed = 1;
  const chance = n => { seed = (Math.imul(seed, 1664525) + 1013904223) >>> 0; return Math.floor(seed / 2 ** 32 * n); };
  const { tree, trace } = pairs.find(p => p.name === "nested"), junk = ["", " ", "\n", "9", "-> ", "init", "at level ", "\u00e9", "\0", "ends", "[", "] "];
  for (let i = 0; i < 3000; i++) {
    const change = s => { const at = chance(s.length); return s.slice(0, at) + junk[chance(junk.length)] + s.slice(at + chance(4)); };
    try {
      const nodes = v.readTree(i % 3 ? tree : change(tree)), run = v.readTrace(i % 3 ? change(trace) : trace, nodes);
      for (let k = 0; k <= run.last; k++) { v.stateAt(run, k); v.sentence(run, k); }
      v.layout(nodes, { width: 800, height: 400 });
    } catch (fault) { assert.ok(fault instanceof v.Malformed, fault.stack); }
  }
});

test("bytes have units", () => {
  const texts = ["0 B", "1023 B", "1 KiB", "4 KiB", "4.0 KiB", "1 MiB", "64 MiB", "1.50 MiB"];
  assert.deepEqual([0, 1023, 1024, 4096, 4097, 1048576, 67108864, 1572865].map(v.bytes), texts);
});

const view = join(viewer, "..", "view");
const run = (...words) => spawnSync("python3", [view, ...words], { maxBuffer: 1 << 28 });
function folder(t) {
  const path = mkdtempSync(join(tmpdir(), "view-test-"));
  t.after(() => rmSync(path, { recursive: true }));
  return name => join(path, name);
}

/** The texts that a page holds, by their names. */
function given(html) {
  const elements = [...html.matchAll(/<script type="text\/plain" id="(\w+)">([^<]*)<\/script>/g)];
  return elements.map(m => [m[1], m[2].replaceAll("&lt;", "<").replaceAll("&amp;", "&")]);
}

test("view: one file without links; no text ends its element, and each comes back as it was", t => {
  const at = folder(t), nasty = '[init -> a] </script><!-- <script> &lt; &amp;lt; \\ " $& \\1\n', long = nasty.repeat(40000);
  writeFileSync(at("tree"), nasty);
  writeFileSync(at("trace"), nasty);
  writeFileSync(at("long"), long);
  const plain = run("--tree", at("tree"), "--trace", at("trace")), html = plain.stdout.toString();
  assert.deepEqual([plain.status, plain.stderr.toString()], [0, ""]);
  assert.doesNotMatch(html.replace("http://www.w3.org/2000/svg", ""), /https?:|<link|<script[^>]* src=|@import|url\(/);
  assert.deepEqual(given(html), [["title", "trace"], ["tree", nasty], ["trace", nasty]]);
  const packed = run("--tree", at("tree"), "--trace", at("long")).stdout.toString();
  const [, base64] = /<script type="text\/plain" id="trace" data-packed="gzip">([A-Za-z0-9+/=]*)<\/script>/.exec(packed);
  assert.equal(gunzipSync(Buffer.from(base64, "base64")).toString(), long);
  assert.equal([...html.matchAll(/<script\b/g)].length, [...html.matchAll(/<\/script>/g)].length);
});

test("view: the page's scripts are those that are tested here, in their order", () => {
  const scripts = [...text(join(viewer, "page.html")).matchAll(/<script src="([\w.]+)">/g)].map(m => m[1]);
  const names = ["read", "state", "timeline", "marks", "ways", "layout", "dom", "boxes", "tables", "plot", "page"];
  assert.deepEqual(scripts, names.map(name => `${name}.js`));
  for (const name of scripts) assert.doesNotMatch(text(join(viewer, name)), /innerHTML|outerHTML|insertAdjacentHTML|document\.write|eval\(|<\/script/);
});

test("view: it runs the program, and refuses with its line and status", t => {
  const at = folder(t), trade = at("trade");
  writeFileSync(trade, `#!/bin/sh
case "$1 $2" in
  *refused) echo "trade: S5 NameTwice a" >&2; exit 1;;
  "turns --signals") echo "a 3"; echo "a!0"; echo "# cut after 1000000 turns";;
  turns*) echo "a 3"; echo "# cut after 1000000 turns";;
  "outcomes --turns") echo "$4 $3";;
  tree*) echo "tree of $2";;
  trace*) echo "trace of $2"; cat "$3";;
esac
`);
  chmodSync(trade, 0o755);
  writeFileSync(at("turns"), "b 2\n");
  const made = (...words) => {
    const { status, stdout, stderr } = run("--trade", trade, ...words);
    return [status, stderr.toString(), ...given(stdout.toString()).map(g => g[1])];
  };
  assert.deepEqual(made("s.toml", at("turns")), [0, "", "s.toml, turns", "tree of s.toml\n", "trace of s.toml\nb 2\n"]);
  assert.deepEqual(made("s.toml"), [0, "", "s.toml, cut after 1,000,000 turns", "tree of s.toml\n", "trace of s.toml\na 3\n# cut after 1000000 turns\n"]);
  assert.deepEqual(made("--signals", "2", "s.toml"), [0, "", "s.toml, each signal 2 times, cut after 1,000,000 turns", "tree of s.toml\n",
    "trace of s.toml\na 3\na!0\n# cut after 1000000 turns\n"]);
  assert.deepEqual(made("--outcome", "7", "s.toml"), [0, "", "s.toml, outcome 7", "tree of s.toml\n", "trace of s.toml\ns.toml 7\n"]);
  assert.deepEqual(made("refused"), [1, "trade: S5 NameTwice a\n"]);
  assert.equal(run().status, 2);
  for (const option of ["--outcome", "--signals"]) assert.equal(run("--trade", trade, option, "1", "s.toml", at("turns")).status, 2);
  assert.equal(run("--trade", trade, "--outcome", "1", "--signals", "1", "s.toml").status, 2);
  assert.equal(run("--tree", at("turns")).status, 2);
  const missing = run("--tree", at("none"), "--trace", at("turns"));
  assert.deepEqual([missing.status, missing.stdout.length, missing.stderr.toString()], [4, 0, `view: No such file or directory: ${at("none")}\n`]);
});

test("a million turns of 64 leaves are read, and the state in their middle is made", t => {
  const { tree, trace } = generate({ leaves: 64, turns: 1000000, idle: 5 }), bytes = new TextEncoder().encode(trace);
  const marks = [], mark = () => marks.push(performance.now());
  mark();
  const nodes = v.readTree(tree);
  const long = v.readTrace(bytes, nodes);
  mark();
  const state = v.stateAt(long, long.last >> 1);
  mark();
  const columns = v.columnEvents(long, "turn", v.wholeWindow(long, "turn"), 600);
  for (const n of nodes) for (const field of ["quota", "used"]) v.bandOf(long, n.number, field, columns);
  for (let lane = 0; lane < long.lanes.length; lane++) v.laneOf(long, lane, columns);
  mark();
  v.layout(nodes, { width: 1064, height: 340 });
  mark();
  assert.equal(long.turns, 1000000);
  checkState(long, state, state.sessions);
  const [read, middle, bands, places] = marks.slice(1).map((m, i) => `${(m - marks[i]).toFixed(1)} ms`);
  t.diagnostic(`${bytes.length} bytes, ${long.last} events: read in ${read}, state in the middle ${middle}, whole time line ${bands}, layout ${places}`);
  assert.ok(marks[1] - marks[0] < 60000 && marks[2] - marks[1] < 1000);
});

test("settings are events between turns, and the values of inputs hold from there on", () => {
  const tree = text(join(viewer, "tests", "settings.tree")), trace = text(join(viewer, "tests", "settings.trace"));
  const nodes = v.readTree(tree), run = v.readTrace(trace, nodes), values = new Map(), sentences = [];
  const named = new Map(nodes.filter(n => n.leaf).map(n => [n.name, n.number]));
  let event = 0;
  for (const line of trace.split("\n")) {
    const set = /^input (?:\S+ -> )*(\S+)\.(\d) = (\d+)$/.exec(line);
    if (set) {
      values.set(`${named.get(set[1])} ${set[2]}`, Number(set[3]));
      sentences.push(v.sentence(run, ++event)[0]);
      assert.equal(v.inputsAt(run, named.get(set[1]), event)[Number(set[2])], Number(set[3]));
      assert.equal(sentences.at(-1), `From outside: input ${set[2]} of ${set[1]} is ${Number(set[3]).toLocaleString("en")} from here on`);
    } else if (/^turn /.test(line)) event++;
    for (const { number, inputs } of nodes.filter(n => n.leaf)) {
      const exited = v.accountAt(run, number, event).phase === "exited";
      if (!set && !/^turn /.test(line)) continue;
      assert.deepEqual(v.inputsAt(run, number, event), inputs.map((_, i) => exited ? 0 : values.get(`${number} ${i}`) ?? 0));
    }
  }
  assert.ok(sentences.length > 2);
  assert.match(v.inputsTold(run, event), /^Inputs: drv /);
  assert.throws(() => v.readTrace(trace.replace(".0 = ", ".7 = "), nodes), v.Malformed);
});

test("signals are events between turns, and each is submitted until it is taken", () => {
  const tree = text(join(viewer, "tests", "signals.tree")), trace = text(join(viewer, "tests", "signals.trace"));
  const nodes = v.readTree(tree), run = v.readTrace(trace, nodes), named = new Map(nodes.map(n => [n.label, n.number]));
  const signals = new Map(nodes.map(n => [n.number, Array.from({ length: n.signals ?? 0 }, () => ({ taken: 0, submitted: false }))]));
  let event = 0, takings = 0, submittedAgain = 0;
  for (const line of trace.split("\n")) {
    const [, label, digit] = /^signal (.*)!(\d)$/.exec(line) ?? /^turn \d+ (.*) on (\d) at 0$/.exec(line) ?? [];
    if (!/^(?:turn|input|signal) /.test(line)) continue;
    event++;
    if (label !== undefined) {
      const signal = signals.get(named.get(label))[Number(digit)], name = label.split(" ").at(-1), isTaken = line.startsWith("turn ");
      const again = signal.submitted ? " again, before it was taken" : "", times = signal.taken ? `${signal.taken + 1} times` : "1 time";
      const told = isTaken ? `${name} takes signal ${digit}, which it has now taken ${times}` : `From outside: signal ${digit} of ${name} is submitted${again}`;
      assert.deepEqual(v.sentence(run, event), [told]);
      assert.ok(!isTaken || signal.submitted, "what is taken was submitted");
      takings += Number(isTaken);
      submittedAgain += Number(!isTaken && signal.submitted);
      Object.assign(signal, { taken: signal.taken + Number(isTaken), submitted: !isTaken });
    }
    for (const { number } of nodes) assert.deepEqual(v.signalsAt(run, number, event), signals.get(number));
  }
  assert.ok(takings > 4 && submittedAgain > 0);
  assert.match(v.inputsTold(run, run.last), /Signals taken: [a-z_]+ \d/);
  assert.deepEqual(v.signalsAt(run, 1, 0).map(s => s.submitted), signals.get(1).map(() => false));
  const refuses = (from, to) => assert.throws(() => v.readTrace(trace.replace(from, to), nodes), v.Malformed);
  refuses("!0\n", "!3\n");
  refuses(" on 0 at 0", " on 2 at 0");
  refuses(" on 0 at 0", " on at 0");
  assert.throws(() => v.readTree(tree.replace(" signals 2", " signals 4")), v.Malformed);
});
