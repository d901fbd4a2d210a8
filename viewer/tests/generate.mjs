// A tree text and a trace text of the form of `trade tree` and `trade trace`, from a simple simulated run: servers that stand on one another, clients in
// nested inits that open sessions, call, raise and close them again and again. It is no `trade`: it knows what statements do to accounts and sessions alone.
//
//   node tests/generate.mjs LEAVES TURNS FOLDER [all]      writes FOLDER/tree and FOLDER/trace
import { mkdirSync, writeFileSync } from "node:fs";
import { join } from "node:path";
import { fileURLToPath } from "node:url";

const SERVICES = ["timer", "log", "net", "file", "disk", "gui", "audio", "names"];
const PAGE = 4096, DONATION = 4 * PAGE, STEPS = 10 ** 9;

/** Numbers from 0 up to, and without, n that are the same in each run. */
function dice(seed) {
  let state = seed;
  return n => {
    state = (Math.imul(state, 1664525) + 1013904223) >>> 0;
    return Math.floor(state / 2 ** 32 * n);
  };
}

const op = (does, text, more = {}) => ({ does, text, ...more });
const quiet = text => op("quiet", text);

/** The statements of a server's sections; `below` is the server that it asks for each call, where there is one. */
function serverProgram(below) {
  const main = [op("space", "space o1 4096"), ...(below ? [op("open", `open o0 ${below.provides} ${DONATION}`, { server: below })] : [])];
  const call = [quiet("push 2"), quiet("mul"), ...(below ? [op("call", "call o0")] : [])];
  const close = [op("release", "free s0")];
  const open = [op("hold", "space s0 4096")], up = [op("hold", "slice s1 64")];
  return { main, open, "up 1": up, "call 0": call, "call 1": call, "close 0": close, "close 1": [...close, op("release", "free s1")] };
}
/** The statements of a client, a round that is done again and again. */
function clientProgram(servers) {
  const [first, second = first] = servers;
  return { main: [
    op("space", "space o2 8192", { pages: 2 }), op("open", `open o0 ${first.provides} ${DONATION}`, { server: first, slot: 0 }), quiet("push 21"),
    op("call", "call o0", { slot: 0 }), op("line", "out"), op("open", `open o1 ${second.provides} ${DONATION}`, { server: second, slot: 1 }),
    op("upgrade", `upgrade o1 ${PAGE}`, { slot: 1 }), quiet("push 4"), op("call", "call o1", { slot: 1 }), op("line", 'say "</script><b>& a line"'),
    op("close", "close o1", { slot: 1 }), op("close", "close o0", { slot: 0 }), op("free", "free o2", { pages: 2 }),
  ] };
}

function leaf(name, quantum, more) {
  const caps = quantum / PAGE, account = { quota: quantum, capQuota: caps, used: 0, taken: 0, steps: 0, phase: "running" };
  return { name, quantum, caps, leaf: true, ...account, section: "main", place: 0, slots: [], queue: [], ...more };
}
function init(name, children) {
  return { name, children, leaf: false };
}

/** Servers, inits with `each` clients, and one leaf that starts after the first client. */
function system(leaves, rounds, chance) {
  const servers = [], count = Math.max(1, Math.min(SERVICES.length, Math.floor(leaves / 4)));
  for (let i = 0; i < count; i++) {
    const below = i >= 2 ? servers[i % 2] : undefined;
    servers.push(leaf(`${SERVICES[i]}_srv`, 16 * PAGE, { provides: SERVICES[i], below }));
  }
  const pick = () => [servers[chance(count)], servers[chance(count)]];
  const clients = Array.from({ length: leaves - count }, (_, i) => leaf(`client${i + 1}`, (12 + chance(8)) * PAGE, { pick: pick() }));
  for (const s of servers) s.program = serverProgram(s.below);
  clients.forEach((c, i) => { Object.assign(c, { program: clientProgram([...new Set(c.pick)]), rounds: i < 2 ? 2 : rounds }); });
  if (clients.length > 2) {
    const late = clients[1];
    Object.assign(late, { after: clients[0].name, quantum: 16 * PAGE, caps: 16, quota: 0, capQuota: 0, phase: "pending" });
    clients[0].quantum = clients[0].quota = 16 * PAGE;
    clients[0].caps = clients[0].capQuota = 16;
  }
  const inits = [];
  for (let i = 0; i < clients.length; i += 9) inits.push(init(`box${inits.length + 1}`, clients.slice(i, i + 9)));
  return init("init", [...servers, ...(inits.length > 1 ? inits : clients)]);
}

/** Labels, parents and sums of a tree, and its nodes in preorder. */
function settle(node, parent, nodes) {
  Object.assign(node, { parent, label: parent ? `${parent.label} -> ${node.name}` : node.name, depth: parent ? parent.depth + 1 : 0, number: nodes.length });
  nodes.push(node);
  if (node.leaf) return;
  for (const child of node.children) settle(child, node, nodes);
  const sum = field => node.children.filter(c => !c.after).reduce((total, c) => total + c[field], 0);
  node.quantum = sum("quantum") + 8 * PAGE;
  node.caps = sum("caps") + 8;
  node.quota = node.quantum - sum("quantum");
  node.capQuota = node.caps - sum("caps");
  node.reported = node.quota;
}

function treeText(nodes) {
  const lines = [];
  for (const n of nodes) {
    const indent = "  ".repeat(n.depth), head = `${indent}${n.name} quantum ${n.quantum}`;
    if (!n.leaf) { lines.push(`${head} left ${n.quota} caps ${n.caps} left ${n.capQuota}`); continue; }
    const provides = n.provides ? ` provides ${n.provides}` : "", after = n.after ? ` after ${n.after}` : "";
    lines.push(`${head} caps ${n.caps}${provides}${after} own ${n.quantum / 2} caps 1 steps ${STEPS}`);
    const opened = new Map(n.program.main.filter(o => o.does === "open").map(o => [o.server.provides, o.server]));
    for (const [service, server] of opened) lines.push(`${indent}  opens ${service} of ${server.label}`);
  }
  return lines.join("\n") + "\n";
}

/** A run of a system: `turn` takes a leaf's step and writes its lines. */
class Simulation {
  constructor(nodes, all) { Object.assign(this, { nodes, all, sessions: [], out: [], turns: 0 }); }
  canRun(n) { return n.phase === "running" || n.phase === "handling" || n.phase === "serving" && n.queue.length > 0; }
  account(n) {
    const steps = n.leaf ? ` steps ${n.steps}/${STEPS} ${n.phase}` : "";
    return `account ${n.label} quota ${n.quota}${n.leaf ? ` used ${n.used}` : ""} caps ${n.capQuota}${n.leaf ? ` taken ${n.taken}` : ""}${steps}`;
  }
  session(s) {
    if (s.gone) return `session ${s.number} ends`;
    const ends = `${s.server.provides} of ${s.server.label} for ${s.client.label}`, request = s.request ? `, ${s.request} ${s.stage}` : "";
    return `session ${s.number} ${ends} at level ${s.level} lends ${s.lends} caps ${s.caps}${request}`;
  }
  move(from, to, amount, caps) { from.quota -= amount; to.quota += amount; from.capQuota -= caps; to.capQuota += caps; }
  ask(session, request, touched) {
    Object.assign(session, { request, stage: "waits" });
    session.client.resume = session.client.phase;
    session.client.phase = "blocked";
    session.server.queue.push(session);
    touched.add(session.client);
  }
  /** A leaf's next step; answers the nodes that changed, the session that did, and the line that it wrote. */
  step(n) {
    const touched = new Set(), reported = { touched };
    n.steps++;
    if (n.phase === "serving") {
      const s = n.queue.shift();
      Object.assign(n, { hand: s, section: s.request.startsWith("up") ? `up ${++s.level}` : s.request, place: 0, phase: "handling" });
      s.stage = "at hand";
      if (s.request === "open") { n.used += PAGE; n.taken++; }
      touched.add(n);
      return { ...reported, at: `${n.section} at 0`, session: s };
    }
    const body = n.program[n.section];
    if (n.section === "main" && n.place === body.length && --n.rounds > 0) n.place = 0;
    const o = body[n.place++], at = `${n.section} at ${n.place}${o ? ` ${o.text}` : ""}`;
    return { ...reported, at, ...(o ? this.statement(n, o, touched) : this.endOf(n, touched)) };
  }
  statement(n, o, touched) {
    const slot = o.slot ?? 0, pages = o.pages ?? 1, own = n.slots[slot];
    if (o.does === "line") return { line: o.text === "out" ? String(n.steps) : JSON.parse(o.text.slice(4)) };
    if (o.does === "space" || o.does === "hold") { n.used += pages * PAGE; n.taken++; touched.add(n); }
    if (o.does === "free" || o.does === "release") { n.used -= pages * PAGE; n.taken--; touched.add(n); }
    if (o.does === "open") {
      let number = this.sessions.findIndex(s => s.gone);
      if (number < 0) number = this.sessions.length;
      const s = this.sessions[number] = { number, server: o.server, client: n, level: 0, lends: DONATION, caps: 3 };
      n.slots[slot] = s;
      this.move(n, o.server, DONATION, 3);
      touched.add(o.server);
      this.ask(s, "open", touched);
      return { session: s };
    }
    if (o.does === "upgrade") { this.move(n, own.server, PAGE, 1); own.lends += PAGE; own.caps++; touched.add(own.server); }
    const request = { upgrade: `up ${(own?.level ?? 0) + 1}`, call: `call ${own?.level}`, close: `close ${own?.level}` }[o.does];
    if (!request) return {};
    this.ask(own, request, touched);
    return { session: own };
  }
  endOf(n, touched) {
    touched.add(n);
    if (n.section === "main") {
      n.phase = n.provides ? "serving" : "exited";
      if (n.provides) return {};
      this.move(n, n.parent, n.quantum, n.caps);
      touched.add(n.parent);
      const next = n.parent.children.find(c => c.after === n.name);
      if (next) { this.move(n.parent, next, next.quantum, next.caps); next.phase = "running"; touched.add(next); }
      return {};
    }
    const s = n.hand;
    if (s.request.startsWith("close")) {
      n.used -= PAGE;
      n.taken--;
      this.move(n, s.client, s.lends, s.caps);
      s.gone = true;
    }
    Object.assign(s, { request: undefined, stage: undefined });
    s.client.phase = s.client.resume;
    touched.add(s.client);
    n.phase = "serving";
    return { session: s };
  }
  turn(n) {
    this.turns++;
    if (!this.canRun(n)) return;
    const { at, touched, session, line } = this.step(n);
    if (!this.all && line === undefined && !touched.size && !session) return;
    this.out.push(`turn ${this.turns} ${n.label} ${at}`);
    if (line !== undefined) this.out.push(`[${n.label}] ${line}`);
    for (const m of [...touched].filter(m => m.leaf || m.reported !== m.quota).sort((a, b) => a.number - b.number)) {
      m.reported = m.quota;
      this.out.push(this.account(m));
    }
    if (session) this.out.push(this.session(session));
  }
  end() {
    this.out.push(`end after ${this.turns} turns`, ...this.nodes.map(n => this.account(n)));
    return this.out.join("\n") + "\n";
  }
}

/** The two texts of a run of so many leaves over so many turns; `idle` of ten turns go to leaves that can't run. */
export function generate({ leaves = 64, turns = 10000, seed = 7, rounds = 100000, idle = 1, all = false } = {}) {
  const chance = dice(seed), root = system(leaves, rounds, chance), nodes = [];
  settle(root, undefined, nodes);
  const tree = treeText(nodes), simulation = new Simulation(nodes, all), runners = nodes.filter(n => n.leaf);
  while (simulation.turns < turns) {
    let i = chance(runners.length);
    if (chance(10) >= idle) for (const start = i; !simulation.canRun(runners[i]) && (i + 1) % runners.length !== start;) i = (i + 1) % runners.length;
    const n = runners[i];
    for (let burst = 1 + chance(3); burst > 0 && simulation.turns < turns; burst--) simulation.turn(n);
  }
  return { tree, trace: simulation.end() };
}

/** The tree text of a random system: inits up to three deep, servers anywhere, leaves that start one after the other; it has no run. */
export function nestedTree(seed, offering = false) {
  const chance = dice(seed), lines = ["init quantum 4096 left 0"], words = ["log", "file_system", "a", "framebuffer"];
  let number = 0;
  /** Adds leaves, and returns the services that they provide, each with the child that serves it. */
  const addLeaves = (depth, label, servers) => {
    const indent = "  ".repeat(depth), count = 1 + chance(depth === 1 ? 7 : 4), provided = [];
    let before;
    for (let i = 0; i < count && number < 60; i++) {
      const name = `n${++number}${"x".repeat(chance(4))}`, after = before && chance(3) === 0 ? ` after ${before}` : "", provides = chance(3) === 0;
      const service = `${words[chance(4)]}${number}`;
      lines.push(`${indent}${name} quantum 4096${provides ? ` provides ${service}` : ""}${after} own 0 steps 1`);
      for (const one of servers.filter(() => chance(servers.length) < 3)) lines.push(`${indent}  opens ${one.service} of ${one.label}`);
      if (provides) {
        servers.push({ service, label: `${label} -> ${name}` });
        provided.push({ ...servers.at(-1), child: name });
      }
      before = after && provides ? undefined : name;
    }
    return provided;
  };
  /** Adds inits, and returns the services that they offer, each with the init that serves it. */
  const addInits = (depth, label, servers) => {
    const indent = "  ".repeat(depth), offered = [];
    for (let i = chance(3) + (offering ? 1 : 0); i > 0 && depth < 4; i--) {
      const name = `i${++number}`, at = lines.push(`${indent}${name} quantum 4096 left 0`);
      const inside = fill(depth + 1, `${label} -> ${name}`, servers), offers = offering ? inside.filter(() => chance(4) > 0) : [];
      offers.sort((a, b) => a.service < b.service ? -1 : 1);
      lines.splice(at, 0, ...offers.map(({ service, child }) => `${indent}  offers ${service} from ${child}`));
      offered.push(...offers.map(one => ({ ...one, child: name })));
    }
    return offered;
  };
  // Inits that offer something come before the leaves that open it.
  const fill = (depth, label, reached) => {
    const servers = [...reached], early = offering ? addInits(depth, label, servers) : [];
    servers.push(...early);
    const provided = addLeaves(depth, label, servers);
    return [...early, ...provided, ...offering ? [] : addInits(depth, label, servers)];
  };
  fill(1, "init", []);
  return lines.join("\n");
}

if (process.argv[1] === fileURLToPath(import.meta.url)) {
  const [leaves, turns, folder, all] = process.argv.slice(2), texts = generate({ leaves: Number(leaves), turns: Number(turns), all: all === "all" });
  mkdirSync(folder, { recursive: true });
  for (const name of ["tree", "trace"]) writeFileSync(join(folder, name), texts[name]);
}
