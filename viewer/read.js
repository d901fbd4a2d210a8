"use strict";
// Reading: the texts of `trade tree` and `trade trace` become a run. Pure functions; nothing here touches the page.
//
// A run can have a million events, so what a trace has is kept in columns of plain numbers (a Table) and not as an object for each line. Everything
// that changes has rows: a row says at which event it came and what holds from there on. An event is the start (0), a turn of the trace, a setting of an
// input, a signal that is submitted, or the end (the last one).

const PHASES = ["pending", "running", "blocked", "serving", "handling", "exited"];
const SECTIONS = ["main", "open", "up 1", "up 2", "up 3", "call 0", "call 1", "call 2", "call 3", "close 0", "close 1", "close 2", "close 3",
  "on 0", "on 1", "on 2"];
/** The section that the first signal of a leaf begins. */
const FIRST_ON = SECTIONS.indexOf("on 0");
const STAGES = ["gone", "idle", "waits", "at hand"];
const [GONE, IDLE, WAITS, AT_HAND] = [0, 1, 2, 3];
/** The leaf of an event that is no turn, the lane of a session that has none, the node of a label that is none's. */
const NOBODY = 0xffff;
/** Inputs that a leaf can have. */
const INPUTS = 8;
/** Signals that a leaf can have. */
const SIGNALS = 3;
/** Sessions of one client at one time that have a lane of their own on the time line. */
const MAX_LANES = 12;
/** A session's number is below this: one per page of the largest `ram`, and one per leaf. */
const MAX_SESSIONS = 16384 + 64;

/** A text that is not what `trade` writes. */
class Malformed extends Error {}

/** Columns of equal length, one for each of the kinds that are given as { name: typed array }; they grow as rows are added. */
class Table {
  constructor(kinds) {
    this.length = 0;
    this.names = Object.keys(kinds);
    for (const name of this.names) this[name] = new kinds[name](0);
    this.resize(1024);
  }
  /** Makes a row of zeros and answers its place. */
  add() {
    if (this.length === this.room) this.resize(this.room * 2);
    return this.length++;
  }
  resize(room) {
    this.room = room;
    for (const name of this.names) {
      const column = new this[name].constructor(room);
      column.set(this[name].subarray(0, Math.min(room, this.length)));
      this[name] = column;
    }
  }
}

const encoder = new TextEncoder(), decoder = new TextDecoder();
/** Bytes of a text that is given as bytes or as a string. */
const bytesOf = text => typeof text === "string" ? encoder.encode(text) : text;

const hashWith = (hash, byte) => Math.imul(hash, 31) + byte | 0;
function hashOf(bytes, from, to) {
  let hash = 0;
  for (let i = from; i < to; i++) hash = hashWith(hash, bytes[i]);
  return hash;
}

/** Texts by number, each kept once. A text is found by the bytes of it, without making a string: most words of a trace are labels that come again and again. */
class Words {
  constructor(texts = []) {
    this.texts = [];
    this.encoded = [];
    this.byHash = new Map();
    for (const text of texts) this.number(encoder.encode(text), 0, encoder.encode(text).length);
  }
  /** The number of bytes[from .. to), or undefined. */
  find(bytes, from, to, hash = hashOf(bytes, from, to)) {
    for (let number = this.byHash.get(hash); number !== undefined; number = this.encoded[number].next) {
      const { own } = this.encoded[number];
      let i = own.length === to - from ? own.length : -1;
      while (i > 0 && own[i - 1] === bytes[from + i - 1]) i--;
      if (i === 0) return number;
    }
    return undefined;
  }
  /** The number of bytes[from .. to), which is new where the text is. */
  number(bytes, from, to) {
    const hash = hashOf(bytes, from, to), found = this.find(bytes, from, to, hash);
    if (found !== undefined) return found;
    const own = bytes.slice(from, to), number = this.texts.push(decoder.decode(own)) - 1;
    this.encoded.push({ own, next: this.byHash.get(hash) });
    this.byHash.set(hash, number);
    return number;
  }
}

const FEED = 10, RETURN = 13, SPACE = 32, DASH = 45, DOT = 46, ABOVE = 62, CLOSE = 93, MARK = 33, ZERO = 48, N = 110;

/** Goes over the bytes of a text line by line, and in a line from word to word. */
class Scanner {
  constructor(title, bytes) { this.title = title; this.bytes = bytes; this.next = this.at = this.end = 0; }
  /** Goes to the next line that isn't empty; a carriage return at its end is no part of it. */
  nextLine() {
    do {
      if (this.next >= this.bytes.length) return false;
      this.at = this.next;
      const feed = this.bytes.indexOf(FEED, this.at);
      this.end = feed < 0 ? this.bytes.length : feed;
      this.next = this.end + 1;
      if (this.end > this.at && this.bytes[this.end - 1] === RETURN) this.end--;
    } while (this.at === this.end);
    return true;
  }
  refuse() {
    const begin = this.bytes.lastIndexOf(FEED, this.end - 1) + 1;
    let number = 1;
    for (let i = 0; i < begin; i++) if (this.bytes[i] === FEED) number++;
    throw new Malformed(`${this.title}, line ${number}: ${decoder.decode(this.bytes.subarray(begin, this.end)).slice(0, 200)}`);
  }
  atEnd() { return this.at >= this.end; }
  wantEnd() { if (!this.atEnd()) this.refuse(); }
  /** Goes over a word, given as bytes, if it stands here. */
  skips(word) {
    for (let i = 0; i < word.length; i++) if (this.bytes[this.at + i] !== word[i]) return false;
    this.at += word.length;
    return true;
  }
  want(word) { if (!this.skips(word)) this.refuse(); }
  number() {
    const from = this.at;
    let value = 0;
    for (let digit; this.at < this.end && (digit = this.bytes[this.at] - ZERO) >= 0 && digit < 10; this.at++) value = value * 10 + digit;
    if (this.at === from) this.refuse();
    return value;
  }
  /** The end of the word that begins here. */
  wordEnd() {
    let at = this.at;
    while (at < this.end && this.bytes[at] !== SPACE) at++;
    return at;
  }
  /** The place of the next word in a list of words. */
  choice(words, to = this.wordEnd(), hash = hashOf(this.bytes, this.at, to)) {
    const number = words.find(this.bytes, this.at, to, hash);
    if (number === undefined) this.refuse();
    this.at = to;
    return number;
  }
  /** The number of the label that stands here: names joined by ` -> `, up to a `]`, a dot, a `!` or a blank with another word behind it. */
  label(labels) {
    const { bytes, end } = this;
    let to = this.at, hash = 0;
    for (let byte; to < end && (byte = bytes[to]) !== CLOSE && byte !== DOT && byte !== MARK; to++) {
      if (byte === SPACE && bytes[to + 1] !== DASH && bytes[to - 1] !== ABOVE) break;
      hash = hashWith(hash, byte);
    }
    return this.choice(labels, to, hash);
  }
  rest() { return decoder.decode(this.bytes.subarray(this.at, this.end)); }
}

const NAME = "[A-Za-z0-9_-]+", LABEL = `${NAME}(?: -> ${NAME})*`;
const OPENS = new RegExp(`^opens (${NAME}) of (${LABEL})$`);
const OFFERS = new RegExp(`^offers (${NAME}) from (${NAME})$`);
const INIT = new RegExp(`^(${NAME}) quantum (\\d+) left (\\d+)(?: caps (\\d+) left (\\d+))?$`);
const GREATEST = `\\d+(?: \\d+){0,${INPUTS - 1}}`;
const LEAF = new RegExp(`^(${NAME}) quantum (\\d+)(?: caps (\\d+))?(?: provides (${NAME}))?(?: after (${NAME}))?(?: inputs (${GREATEST}))?`
  + "(?: signals (\\d))? own (\\d+)(?: caps (\\d+))? steps (\\d+)$");
const optional = digits => digits === undefined ? undefined : Number(digits);

/** What a line of the tree says of a node, or undefined. */
function nodeOf(line) {
  let m = LEAF.exec(line);
  if (m) {
    const inputs = m[6] === undefined ? [] : m[6].split(" ").map(Number), signals = Number(m[7] ?? 0);
    const [own, ownCaps, steps] = [+m[8], optional(m[9]), +m[10]];
    return signals > SIGNALS ? undefined
      : { leaf: true, name: m[1], quantum: +m[2], caps: optional(m[3]), provides: m[4], after: m[5], inputs, signals, own, ownCaps, steps };
  }
  m = INIT.exec(line);
  return m ? { leaf: false, name: m[1], quantum: +m[2], left: +m[3], caps: optional(m[4]), capsLeft: optional(m[5]) } : undefined;
}

/** Whether a service can lead from a leaf to a node: to another leaf beside it or beside an init around it, or by offers to a leaf below such a node. */
function isRouted(client, server, service) {
  if (!server?.leaf || server === client) return false;
  const around = new Set();
  for (let init = client.parent; init; init = init.parent) around.add(init);
  for (let node = server; node.parent; node = node.parent) {
    if (around.has(node.parent)) return true;
    if (!node.parent.offers.some(offer => offer.service === service && offer.child === node.name)) return false;
  }
  return false;
}

/** The text of `trade tree`: the nodes in preorder, each with its number, label, depth, parent, children and the services that it opens or offers. */
function readTree(text) {
  const scanner = new Scanner("tree", bytesOf(text)), nodes = [], above = [], opened = [], offered = [];
  while (scanner.nextLine()) {
    const indented = scanner.rest(), line = indented.trimStart(), depth = (indented.length - line.length) / 2, opens = OPENS.exec(line);
    if (opens && nodes.length && nodes.at(-1).leaf && depth === nodes.at(-1).depth + 1) {
      nodes.at(-1).opens.push({ service: opens[1], label: opens[2] });
      opened.push([scanner.end, nodes.at(-1), nodes.at(-1).opens.at(-1)]);
      continue;
    }
    const offers = OFFERS.exec(line), last = nodes.at(-1);
    if (offers && last && !last.leaf && last.depth > 0 && depth === last.depth + 1) {
      last.offers.push({ service: offers[1], child: offers[2] });
      offered.push([scanner.end, last, last.offers.at(-1)]);
      continue;
    }
    const node = nodeOf(line), parent = above[depth - 1];
    if (!node || (nodes.length ? !parent || parent.leaf || depth > above.length : depth !== 0)) scanner.refuse();
    above.length = depth;
    above.push(node);
    Object.assign(node, { number: nodes.length, depth, parent, children: [], opens: [], offers: [], label: above.map(n => n.name).join(" -> ") });
    parent?.children.push(node);
    nodes.push(node);
  }
  if (!nodes.length) throw new Malformed("tree: the text is empty");
  const byLabel = new Map(nodes.map(n => [n.label, n.number]));
  if (byLabel.size < nodes.length || nodes.length >= NOBODY) throw new Malformed("tree: a name stands twice");
  for (const [end, init, { child }] of offered) {
    if (!init.children.some(node => node.name === child)) { scanner.end = end; scanner.refuse(); }
  }
  for (const [end, client, opens] of opened) {
    opens.server = byLabel.get(opens.label);
    if (!isRouted(client, nodes[opens.server], opens.service)) { scanner.end = end; scanner.refuse(); }
  }
  return nodes;
}

/** Adds the account with which a node starts. */
function addFirstAccount(accounts, node) {
  const row = accounts.add(), waits = node.after !== undefined;
  accounts.node[row] = node.number;
  accounts.quota[row] = node.leaf ? waits ? 0 : node.quantum : node.left;
  accounts.caps[row] = (node.leaf ? waits ? 0 : node.caps : node.capsLeft) ?? 0;
  accounts.budget[row] = node.leaf ? node.steps : 0;
  accounts.phase[row] = PHASES.indexOf(node.leaf && !waits ? "running" : "pending");
}
/** An event; `setting` is one more than its row among the settings, or 0 where it is none, and `signal` the same among the signals that are submitted. */
function addEvent({ events }, turn, leaf, section, place, statement, setting = 0, signal = 0) {
  const row = events.add();
  events.turn[row] = turn;
  events.leaf[row] = leaf;
  events.section[row] = section;
  events.place[row] = place;
  events.statement[row] = statement;
  events.setting[row] = setting;
  events.signal[row] = signal;
}

const SECTION_WORDS = new Words(SECTIONS), PHASE_WORDS = new Words(PHASES), STAGE_WORDS = new Words(STAGES);
const [BLANK, AT, QUOTA, USED, CAPS, TAKEN, STEPS, SLASH, ENDS, OF, FOR, LEVEL, LENDS, COMMA, CLOSED] =
  [" ", " at ", " quota ", " used ", " caps ", " taken ", " steps ", "/", "ends", " of ", " for ", " at level ", " lends ", ", ", "] "].map(bytesOf);
const [POINT, IS, EXCLAMATION] = [".", " = ", "!"].map(bytesOf);
const [TURN, ACCOUNT, SESSION, INPUT, SIGNAL, OUTPUT, END, TURNS] =
  ["turn ", "account ", "session ", "input ", "signal ", "[", "end after ", " turns"].map(bytesOf);

function emptyRun(nodes, bytes) {
  const whole = Uint32Array, short = Uint16Array, byte = Uint8Array;
  const run = {
    nodes, bytes, two: nodes[0].caps !== undefined, turns: 0,
    labels: new Words(nodes.map(n => n.label)), statements: new Words([""]), services: new Words(),
    events: new Table({ turn: whole, leaf: short, section: byte, place: short, statement: whole, setting: whole, signal: whole }),
    settings: new Table({ event: whole, leaf: short, input: byte, value: whole }),
    signals: new Table({ event: whole, leaf: short, signal: byte, key: whole }), takings: new Table({ event: whole, leaf: short, signal: byte, key: whole }),
    accounts: new Table({ event: whole, node: short, quota: whole, used: whole, caps: whole, taken: whole, steps: Float64Array, budget: Float64Array,
      phase: byte }),
    sessions: new Table({ event: whole, number: short, service: short, server: short, client: short, level: byte, lends: whole, caps: whole, stage: byte,
      request: byte }),
    lines: new Table({ event: whole, leaf: short, from: whole, to: whole }),
  };
  addEvent(run, 0, NOBODY, 0, 0, 0);
  for (const node of nodes) addFirstAccount(run.accounts, node);
  return run;
}

/** `main`, `open`, or `up`, `call`, `close` with their level, or `on` with the number of a signal. */
function readSection(scanner) {
  let to = scanner.wordEnd();
  const numbered = scanner.bytes[to - 1] !== N || to - scanner.at === 2;              // `main` and `open` end in it, and `on`, which is shorter
  return scanner.choice(SECTION_WORDS, numbered ? to + 2 : to);
}

function readTurn(scanner, run) {
  const turn = scanner.number();
  scanner.want(BLANK);
  const leaf = scanner.label(run.labels);
  scanner.want(BLANK);
  const section = readSection(scanner);
  scanner.want(AT);
  const place = scanner.number(), statement = scanner.skips(BLANK) ? run.statements.number(scanner.bytes, scanner.at, scanner.end) : 0;
  if (section >= FIRST_ON && section - FIRST_ON >= run.nodes[leaf].signals) scanner.refuse();
  if (section >= FIRST_ON && place === 0) addSignal(run.takings, run.events.length, leaf, section - FIRST_ON);
  addEvent(run, turn, leaf, section, place, statement);
}
/** Adds to the signals that are submitted, or to those that are taken. */
function addSignal(table, event, leaf, signal) {
  const row = table.add();
  table.key[row] = leaf * SIGNALS + signal;
  table.event[row] = event;
  table.leaf[row] = leaf;
  table.signal[row] = signal;
}

/** The number behind a word. */
function readAfter(scanner, word) {
  scanner.want(word);
  return scanner.number();
}
function readAccount(scanner, run) {
  const { accounts, two } = run, row = accounts.add(), number = scanner.label(run.labels), { leaf } = run.nodes[number];
  accounts.event[row] = run.events.length - 1;
  accounts.node[row] = number;
  accounts.quota[row] = readAfter(scanner, QUOTA);
  if (leaf) accounts.used[row] = readAfter(scanner, USED);
  if (two) accounts.caps[row] = readAfter(scanner, CAPS);
  if (two && leaf) accounts.taken[row] = readAfter(scanner, TAKEN);
  if (leaf) {
    accounts.steps[row] = readAfter(scanner, STEPS);
    accounts.budget[row] = readAfter(scanner, SLASH);
    scanner.want(BLANK);
    accounts.phase[row] = scanner.choice(PHASE_WORDS);
  }
  scanner.wantEnd();
}

function readSession(scanner, run) {
  const { sessions } = run, row = sessions.add(), number = sessions.number[row] = scanner.number();
  if (number >= MAX_SESSIONS) scanner.refuse();
  sessions.event[row] = run.events.length - 1;
  scanner.want(BLANK);
  const from = scanner.at, to = scanner.wordEnd();
  if (to === scanner.end) {
    scanner.want(ENDS);
    scanner.wantEnd();
    return;
  }
  scanner.at = to;
  sessions.service[row] = run.services.number(scanner.bytes, from, to);
  scanner.want(OF);
  sessions.server[row] = scanner.label(run.labels);
  scanner.want(FOR);
  sessions.client[row] = scanner.label(run.labels);
  sessions.level[row] = readAfter(scanner, LEVEL);
  sessions.lends[row] = readAfter(scanner, LENDS);
  if (scanner.skips(CAPS)) sessions.caps[row] = scanner.number();
  sessions.stage[row] = IDLE;
  if (scanner.skips(COMMA)) {
    sessions.request[row] = readSection(scanner);
    scanner.want(BLANK);
    sessions.stage[row] = scanner.choice(STAGE_WORDS, scanner.end);
  } else scanner.wantEnd();
}

/** A setting of an input: an event at the turn of the one before it. */
function readSetting(scanner, run) {
  const { settings, events } = run, row = settings.add(), leaf = settings.leaf[row] = scanner.label(run.labels);
  scanner.want(POINT);
  const input = settings.input[row] = scanner.number();
  settings.value[row] = readAfter(scanner, IS);
  scanner.wantEnd();
  if (!run.nodes[leaf].leaf || input >= run.nodes[leaf].inputs.length) scanner.refuse();
  settings.event[row] = events.length;
  addEvent(run, events.turn[events.length - 1], leaf, 0, 0, 0, row + 1);
}

/** A signal that is submitted: an event at the turn of the one before it. */
function readSignal(scanner, run) {
  const { signals, events } = run, leaf = scanner.label(run.labels), signal = readAfter(scanner, EXCLAMATION);
  scanner.wantEnd();
  if (!run.nodes[leaf].leaf || signal >= run.nodes[leaf].signals) scanner.refuse();
  addSignal(signals, events.length, leaf, signal);
  addEvent(run, events.turn[events.length - 1], leaf, 0, 0, 0, 0, signals.length);
}

function readOutput(scanner, run) {
  const { lines } = run, row = lines.add();
  lines.leaf[row] = scanner.label(run.labels);
  scanner.want(CLOSED);
  lines.event[row] = run.events.length - 1;
  lines.from[row] = scanner.at;
  lines.to[row] = scanner.end;
}

/** The rows of each of `count` keys, in order: those of key k are rows[start[k]] up to, and without, rows[start[k + 1]]. */
function groupRows(keys, length, count) {
  const start = new Uint32Array(count + 2);
  for (let i = 0; i < length; i++) if (keys[i] < count) start[keys[i] + 2]++;
  for (let k = 2; k < start.length; k++) start[k] += start[k - 1];
  const rows = new Uint32Array(start[count + 1]);
  for (let i = 0; i < length; i++) if (keys[i] < count) rows[start[keys[i] + 1]++] = i;
  return { start, rows, of: key => rows.subarray(start[key], start[key + 1]) };
}

/** The lane of each session's row among those of its client: the lowest one that is free as the session comes, so that no two share one at a time. */
function giveLanes(run) {
  const { sessions, nodes } = run, lane = new Uint16Array(sessions.length).fill(NOBODY), laneOf = new Map(), taken = nodes.map(() => []);
  run.lanes = [];
  for (const node of nodes) Object.assign(node, { lanes: [], mostSessions: 0 });
  for (let row = 0; row < sessions.length; row++) {
    const number = sessions.number[row];
    let own = laneOf.get(number);
    if (sessions.stage[row] === GONE) {
      if (own) own.list[own.place] = false;
      laneOf.delete(number);
    } else if (!own) {
      const client = nodes[sessions.client[row]], list = taken[client.number], free = list.indexOf(false), place = free < 0 ? list.push(true) - 1 : free;
      list[place] = true;
      client.mostSessions = list.length;
      if (place < MAX_LANES && client.lanes[place] === undefined) client.lanes[place] = run.lanes.push(client.number) - 1;
      laneOf.set(number, own = { list, place, lane: client.lanes[place] ?? NOBODY });
    }
    if (own) lane[row] = own.lane;
  }
  run.laneRows = groupRows(lane, sessions.length, run.lanes.length);
}

/** What is looked up while one moves about in a run. */
function index(run) {
  const { events, accounts, sessions, settings, signals, takings, lines, nodes } = run;
  for (const table of [events, accounts, sessions, settings, signals, takings, lines]) table.resize(Math.max(1, table.length));
  run.last = events.length - 1;
  run.accountRows = groupRows(accounts.node, accounts.length, nodes.length);
  run.sessionCount = sessions.number.subarray(0, sessions.length).reduce((most, n) => Math.max(most, n + 1), 0);
  run.sessionRows = groupRows(sessions.number, sessions.length, run.sessionCount);
  run.settingRows = groupRows(settings.leaf, settings.length, nodes.length);
  for (const table of [signals, takings]) table.ofSignal = groupRows(table.key, table.length, nodes.length * SIGNALS);
  for (const table of [accounts, sessions, lines]) table.at = groupRows(table.event, table.length, events.length).start;
  giveLanes(run);
  run.greatest = nodes.map(node => {
    const rows = run.accountRows.of(node.number), most = column => rows.reduce((top, row) => Math.max(top, column[row]), 1);
    return { quota: most(accounts.quota), caps: most(accounts.caps) };
  });
  run.colours = coloursOf(nodes);
  return run;
}

/** The text of `trade trace`, as bytes or as a string, over the nodes of its tree. */
function readTrace(text, nodes) {
  const bytes = bytesOf(text), scanner = new Scanner("trace", bytes), run = emptyRun(nodes, bytes);
  let ended = false;
  while (!ended && scanner.nextLine()) {
    if (scanner.skips(ACCOUNT)) readAccount(scanner, run);
    else if (scanner.skips(SESSION)) readSession(scanner, run);
    else if (scanner.skips(TURN)) readTurn(scanner, run);
    else if (scanner.skips(OUTPUT)) readOutput(scanner, run);
    else if (scanner.skips(INPUT)) readSetting(scanner, run);
    else if (scanner.skips(SIGNAL)) readSignal(scanner, run);
    else if (scanner.skips(END)) ended = true;
    else scanner.refuse();
  }
  if (!ended) throw new Malformed("trace: the text stops before its end");
  run.turns = scanner.number();
  scanner.want(TURNS);
  addEvent(run, run.turns, NOBODY, 0, 0, 0);
  for (const node of nodes) {
    if (!scanner.nextLine()) throw new Malformed("trace: the text stops before its end");
    scanner.want(ACCOUNT);
    readAccount(scanner, run);
    if (run.accounts.node[run.accounts.length - 1] !== node.number) scanner.refuse();
  }
  if (scanner.nextLine()) scanner.refuse();
  return index(run);
}
