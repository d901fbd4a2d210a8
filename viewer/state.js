"use strict";
// The state at an event, what an event changes, and the event in words. Pure functions over a run (read.js).

/** The place in sorted `rows` of the last one whose event is not after `event`, -1 where all are. */
function lastUpTo(rows, eventOf, event) {
  let low = -1, high = rows.length;
  while (high - low > 1) {
    const middle = (low + high) >> 1;
    if (eventOf[rows[middle]] <= event) low = middle; else high = middle;
  }
  return low;
}

/** The account of a row; the row stands in it, so that what shows it knows whether it is shown already. */
function accountOf({ accounts: t }, row) {
  return { row, quota: t.quota[row], used: t.used[row], caps: t.caps[row], taken: t.taken[row], steps: t.steps[row], budget: t.budget[row],
    phase: PHASES[t.phase[row]] };
}
function accountAt(run, node, event) {
  const rows = run.accountRows.of(node);
  return accountOf(run, rows[lastUpTo(rows, run.accounts.event, event)]);
}

/** The values of a leaf's inputs after an event; those of a leaf that has exited are 0. */
function inputsAt(run, node, event) {
  const { settings: t, nodes } = run, values = (nodes[node].inputs ?? []).map(() => 0), rows = run.settingRows.of(node);
  if (!values.length || accountAt(run, node, event).phase === "exited") return values;
  const seen = new Set();
  for (let place = lastUpTo(rows, t.event, event); place >= 0 && seen.size < values.length; place--) {
    const input = t.input[rows[place]];
    if (!seen.has(input)) values[input] = t.value[rows[place]];
    seen.add(input);
  }
  return values;
}

/** How many of the events at which a signal is submitted, or taken, are not after an event; and the last of them, -1 where there is none. */
function eventsOfSignal(table, node, signal, event) {
  const rows = table.ofSignal.of(node * SIGNALS + signal), place = lastUpTo(rows, table.event, event);
  return { count: place + 1, last: place < 0 ? -1 : table.event[rows[place]] };
}
/** The signals of a leaf after an event: how often each was taken, and whether it is submitted and not yet taken. */
function signalsAt(run, node, event) {
  return Array.from({ length: run.nodes[node].signals ?? 0 }, (_, signal) => {
    const submitted = eventsOfSignal(run.signals, node, signal, event), taken = eventsOfSignal(run.takings, node, signal, event);
    return { taken: taken.count, submitted: submitted.last > taken.last };
  });
}
/** The signals of a leaf as `trade state` has them: how often each was taken, with `!` where it is submitted and not yet taken. */
const signalWords = signals => signals.map(({ taken, submitted }) => `${grouped(taken)}${submitted ? "!" : ""}`).join(" ");

/** The session of a row, or null where it is gone. */
function sessionOf(run, row) {
  const t = run.sessions;
  if (row === undefined || t.stage[row] === GONE) return null;
  return { row, number: t.number[row], service: run.services.texts[t.service[row]], server: t.server[row], client: t.client[row], level: t.level[row],
    lends: t.lends[row], caps: t.caps[row], stage: t.stage[row], request: t.stage[row] > IDLE ? SECTIONS[t.request[row]] : "" };
}
function sessionAt(run, number, event) {
  const rows = run.sessionRows.of(number);
  return sessionOf(run, rows[lastUpTo(rows, run.sessions.event, event)]);
}

/** All that holds after an event: the account of each node, and the open sessions by number. */
function stateAt(run, event) {
  const sessions = [];
  for (let number = 0; number < run.sessionCount; number++) {
    const session = sessionAt(run, number, event);
    if (session) sessions.push(session);
  }
  return { event, accounts: run.nodes.map(node => accountAt(run, node.number, event)), sessions };
}

/** The account as `trade` writes it. */
function accountLine(run, node, account) {
  const { leaf, label } = run.nodes[node], { quota, used, taken, phase } = account, capsOf = run.two ? ` caps ${account.caps}` : "";
  if (!leaf) return `account ${label} quota ${quota}${capsOf}`;
  return `account ${label} quota ${quota} used ${used}${capsOf}${run.two ? ` taken ${taken}` : ""} steps ${account.steps}/${account.budget} ${phase}`;
}

/** The number of lines that were written up to and with an event. */
const linesUpTo = (run, event) => run.lines.at[event + 1];
const lineText = (run, line) => decoder.decode(run.bytes.subarray(run.lines.from[line], run.lines.to[line]));

/** The rows of a table that an event reported. */
const rowsAt = (table, event) => Array.from({ length: table.at[event + 1] - table.at[event] }, (_, i) => table.at[event] + i);

const INIT_FIELDS = ["quota", "caps"], LEAF_FIELDS = ["phase", "quota", "used", "caps", "taken"];
/** What an event changes in accounts: { node, field, before, after } each. Steps are left out: a trace has them only beside another change. */
function accountChanges(run, event) {
  if (event === 0) return [];
  return rowsAt(run.accounts, event).flatMap(row => {
    const node = run.accounts.node[row], before = accountAt(run, node, event - 1), after = accountOf(run, row);
    const changed = (run.nodes[node].leaf ? LEAF_FIELDS : INIT_FIELDS).filter(field => before[field] !== after[field]);
    return changed.map(field => ({ node, field, before: before[field], after: after[field] }));
  });
}
/** What an event changes in sessions: { number, before, after } each, null where there is none. */
function sessionChanges(run, event) {
  return rowsAt(run.sessions, event).map(row => {
    const number = run.sessions.number[row];
    return { number, before: event ? sessionAt(run, number, event - 1) : null, after: sessionOf(run, row) };
  });
}

/** The nearest event after (way 1) or before (way -1) an event at which a node's account changed, or undefined. */
function nextOf(run, node, event, way) {
  const rows = run.accountRows.of(node), place = lastUpTo(rows, run.accounts.event, way > 0 ? event : event - 1);
  const row = rows[way > 0 ? place + 1 : place];
  return row === undefined ? undefined : run.accounts.event[row];
}

/**
 * The first event at which a node holds most, of "bytes" or of "caps": a leaf of what it uses, an init of what it has not handed out.
 */
function peakOf(run, node, kind) {
  const rows = run.accountRows.of(node), { leaf } = run.nodes[node], column = run.accounts[kind === "caps" ? leaf ? "taken" : "caps" : leaf ? "used" : "quota"];
  let best = rows[0];
  for (const row of rows) if (column[row] > column[best]) best = row;
  return run.accounts.event[best];
}

/** The event of an address's fragment, the start where it has none; one that is out of range becomes the nearest that there is. */
function eventIn(fragment, last) {
  const event = Number(new URLSearchParams(fragment.replace(/^#/, "")).get("event"));
  return Number.isNaN(event) ? 0 : Math.max(0, Math.min(last, Math.floor(event)));
}
const fragmentOf = event => `#event=${event}`;

const grouped = number => number.toLocaleString("en");
const counted = (number, unit) => `${grouped(number)} ${unit}${number === 1 ? "" : "s"}`;
/** Bytes in the largest unit that suits; a decimal point says that the number is rounded. */
function bytes(number) {
  const [unit, size, digits] = number < 1024 ? ["B", 1, 0] : number < 1 << 20 ? ["KiB", 1 << 10, 1] : ["MiB", 1 << 20, 2];
  const value = number / size;
  return `${Number.isInteger(value) ? value : value.toFixed(digits)} ${unit}`;
}
const caps = number => counted(number, "cap");
/** What a session lends, in both kinds. */
const lent = (run, session) => bytes(session.lends) + (run.two ? `, ${caps(session.caps)}` : "");

/** How many leaves are in which phase. */
function phaseCounts(run, event) {
  const phases = run.nodes.filter(n => n.leaf).map(n => accountAt(run, n.number, event).phase), count = phase => phases.filter(p => p === phase).length;
  return PHASES.filter(count).map(phase => `${grouped(count(phase))} ${phase}`).join(", ") || "no component";
}

const ASKS = { open: "opens", up: "raises", call: "calls in", close: "closes" };
/** The event in words: a list of texts, those of the program as { code }. */
function sentence(run, event) {
  const t = run.events, name = node => run.nodes[node].name;
  if (event === 0) return ["Start: each component that does not wait for another has its quantum"];
  if (event === run.last) return [`End, after ${counted(run.turns, "turn")}: ${phaseCounts(run, event)}`];
  if (t.setting[event]) {
    const { leaf, input, value } = run.settings, row = t.setting[event] - 1;
    return [`From outside: input ${input[row]} of ${name(leaf[row])} is ${grouped(value[row])} from here on`];
  }
  if (t.signal[event]) {
    const { leaf, signal } = run.signals, row = t.signal[event] - 1, again = signalsAt(run, leaf[row], event - 1)[signal[row]].submitted;
    return [`From outside: signal ${signal[row]} of ${name(leaf[row])} is submitted${again ? " again, before it was taken" : ""}`];
  }
  const who = name(t.leaf[event]), section = SECTIONS[t.section[event]], code = run.statements.texts[t.statement[event]];
  const [change] = sessionChanges(run, event), session = change?.after ?? change?.before;
  const which = session ? `session ${session.number} (${session.service})` : "its session";
  if (t.section[event] >= FIRST_ON && (t.place[event] === 0 || !code)) {
    const signal = t.section[event] - FIRST_ON, { taken } = signalsAt(run, t.leaf[event], event)[signal];
    if (t.place[event] > 0) return [`${who} ends ${section} and serves again`];
    return [`${who} takes signal ${signal}, which it has now taken ${counted(taken, "time")}`];
  }
  if (t.place[event] === 0) return [`${who} takes ${section}${session ? ` of ${which} for ${name(session.client)}` : ""}`];
  if (code) {
    const asks = change?.after?.stage === WAITS && session.client === t.leaf[event], wrote = run.lines.at[event + 1] > run.lines.at[event];
    const asked = asks ? `: ${ASKS[session.request.split(" ")[0]]} ${which} and waits for ${name(session.server)}` : "";
    return [`${who} in ${section} at ${t.place[event]}: `, { code }, `${asked}${wrote ? ": writes a line" : ""}`].filter(part => part);
  }
  if (section !== "main") {
    const gone = change && !change.after ? `: the session has ended, and ${lent(run, session)} go back` : "";
    return [`${who} ends ${section} and answers ${session ? `${name(session.client)} in ${which}` : "its client"}${gone}`];
  }
  return [`${who} ends main and ${accountAt(run, t.leaf[event], event).phase === "exited" ? "exits" : "serves from now on"}`];
}

/** The values of all inputs after an event, and how often signals were taken, in words; empty where no component has either. */
function inputsTold(run, event) {
  const settings = run.nodes.filter(n => n.inputs?.length).map(n => `${n.name} ${inputsAt(run, n.number, event).map(grouped).join(" ")}`);
  const signals = run.nodes.filter(n => n.signals).map(n => `${n.name} ${signalWords(signalsAt(run, n.number, event))}`);
  const told = [["Inputs", settings], ["Signals taken", signals]].filter(([, words]) => words.length);
  return told.map(([what, words]) => `${what}: ${words.join(" · ")}`).join(". ");
}

/** A change in words. */
function changeWords(run, { node, field, before, after }) {
  const shown = value => field === "phase" ? value : field === "quota" || field === "used" ? bytes(value) : grouped(value);
  const word = { caps: "caps", taken: "caps taken" }[field] ?? field, sign = field === "phase" ? "" : after > before ? "▲ " : "▼ ";
  return `${run.nodes[node].name}: ${sign}${word} ${shown(before)} → ${shown(after)}`;
}
function sessionWords(run, { number, before, after }) {
  if (!after) return `session ${number} ends`;
  const stage = s => s.stage === IDLE ? "no request" : `${s.request} ${STAGES[s.stage]}`;
  if (!before) return `session ${number}: new, lends ${lent(run, after)}, ${stage(after)}`;
  const parts = [];
  if (before.level !== after.level) parts.push(`level ${before.level} → ${after.level}`);
  if (before.lends !== after.lends || before.caps !== after.caps) parts.push(`lends ${lent(run, before)} → ${lent(run, after)}`);
  if (stage(before) !== stage(after)) parts.push(`${stage(before)} → ${stage(after)}`);
  return `session ${number}: ${parts.join(", ")}`;
}
