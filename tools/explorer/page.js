"use strict";
// Shows what stands in the data of the page. It computes nothing of the protocol.
const data = JSON.parse(document.getElementById("data").textContent);
const last = data.events.length - 1;
const $ = (id) => document.getElementById(id);
let at = -1;

// Elements.

function add(to, children) {
  to.append(...children.flat(9).filter((child) => child != null && child !== false));
  return to;
}

function el(name, set = {}, ...children) {
  const made = document.createElement(name);
  for (const [key, value] of Object.entries(set)) {
    if (key === "onclick") made.addEventListener("click", value);
    else if (value != null && value !== false) made.setAttribute(key, value);
  }
  return add(made, children);
}

function svg(name, set = {}, ...children) {
  const made = document.createElementNS("http://www.w3.org/2000/svg", name);
  for (const [key, value] of Object.entries(set)) made.setAttribute(key, value);
  return add(made, children);
}

const link = (event) => el("a", { href: `#${event}` }, `#${event}`);
const none = (words) => el("span", { class: "none" }, words);
const note = (...words) => el("p", { class: "note" }, words);
const terms = (pairs) =>
  el("dl", {}, pairs.filter(Boolean).map(([name, value]) => [el("dt", {}, name), el("dd", {}, value)]));

function grouped(items, kind) {
  const made = {};
  for (const it of items) (made[kind(it)] ??= []).push(it);
  return made;
}

// Words.

const number = (name) => Number(name.slice(1));
const party = (name) => (name[0] === "n" ? "node " : "client ") + name.slice(1);
const listed = (items) => (items.length > 1 ? `${items.slice(0, -1).join(", ")} and ` : "") + items.at(-1);
const numbers = (names) => listed(names.map((name) => String(name).replace(/^n/, "")));

/** Rising positions in words, as 1–3 and 5. */
function spans(positions) {
  const runs = [];
  for (const it of positions) {
    if (runs.at(-1)?.[1] === it - 1) runs.at(-1)[1] = it;
    else runs.push([it, it]);
  }
  return listed(runs.map(([from, to]) => (from === to ? `${from}` : `${from}–${to}`)));
}

function command(it) {
  if (it == null) return "a command that no run shows";
  if (it === "noop") return "no-op";
  const [client, request] = it.split(" ");
  return `${data.asked[it] ?? "a request"} (client ${client}, request ${request})`;
}

function ballot(place) {
  if (place == null) return ["a ballot that no run shows"];
  const [name, event] = data.ballots[place];
  return [`ballot of ${party(name)} (`, link(event), ")"];
}

function proposal(place) {
  const it = data.proposals[place];
  return it.position ? `position ${it.position}: ${command(it.command)}` : [`what is proposed at `, link(it.event)];
}

// What a node holds.

function stateOf(node) {
  const place = data.after[at][node];
  return place == null ? null : data.states[place];
}

/** The executed positions by what of them is on the disks. */
function disk(state) {
  const first = state.kept[0] ?? state.executed + 1;
  const kind = (it) =>
    it < first ? "snapshot" : state.synced.includes(it) ? "synced" : state.kept.includes(it) ? "written" : "memory";
  return grouped(Array.from({ length: state.executed }, (_, place) => place + 1), kind);
}

const DISK = { snapshot: "in a snapshot", synced: "synced", written: "written, not synced", memory: "not written" };

function executed(state) {
  if (!state.executed) return none(state.executed == null ? "not shown" : "no position");
  const held = Object.entries(disk(state));
  const boxes = held.flatMap(([kind, positions]) =>
    (kind === "snapshot" ? [spans(positions)] : positions).map((it) => el("span", { class: kind }, it)));
  const words = held.map(([kind, positions]) => `${spans(positions)} ${DISK[kind]}`);
  return [el("div", { class: "boxes", "aria-hidden": "true" }, boxes), note(words.join("; "))];
}

function promised(state) {
  const it = state.promised;
  if (!it) return none("nothing");
  return [
    el("p", { class: "is-promise" }, ballot(it.ballot)), !it.synced && note("not synced"),
    it.shown < state.at && note("last shown after ", link(it.shown)),
  ];
}

function votes(state) {
  const position = (it) => data.proposals[it.proposal].position ?? Infinity;
  const [open, closed] = [true, false].map((is) => state.votes.filter((it) => position(it) > state.executed === is));
  const rows = open.map((it) => [
    el("p", { class: "is-vote" }, proposal(it.proposal), !it.synced && ", not synced"),
    note(ballot(data.proposals[it.proposal].ballot), it.shown < state.at && [", last shown after ", link(it.shown)]),
  ]);
  const older = closed.map(position).sort((one, other) => one - other);
  if (older.length) rows.push(note(`${rows.length ? "and " : ""}at ${spans(older)}, executed`));
  return rows.length ? rows : none("none");
}

function locks(state) {
  const table = data.tables[state.executed];
  if (!table) return none("not shown");
  return table.map(([name, answer]) => el("p", {}, el("code", {}, name), ` ${answer}`));
}

const REQUESTS = { accept: "would be proposed at once", elsewhere: "would be sent to the leader" };
const request = (state) => REQUESTS[state.asked.at(-1)] ?? none("would get no reply yet");
const members = (state) => (state.members.length ? numbers(state.members) : none("not itself, as far as it knows"));

function held(state) {
  return terms([
    ["Members", members(state)], ["Promised", promised(state)], ["Votes", votes(state)], ["Executed", executed(state)],
    data.tables[0]?.length && ["Locks", locks(state)], isUp(state) && ["A request", request(state)],
  ]);
}

const isUp = (state) => state.life === "up";

function card(node) {
  const state = stateOf(node), touched = data.events[at].node === Number(node);
  const open = { type: "button", "data-node": node, onclick: () => showNode(node) };
  return el("article", { class: touched ? "node touched" : "node", "aria-label": `Node ${node}` },
    el("button", open, `Node ${node}`, el("span", { class: isUp(state) ? "pill" : "pill off" }, state.life)),
    !isUp(state) && el("p", { class: "note above" }, "A restart would find:"), held(state));
}

const rising = (names) => names.sort((one, other) => one - other);

function renderNodes() {
  const names = rising(Object.keys(data.after[at]));
  $("nodes").style.setProperty("--columns", names.length === 4 ? 2 : Math.min(3, names.length));
  $("nodes").replaceChildren(...(names.length ? names.map(card) : [none("No node has started yet.")]));
}

// Datagrams.

const isUnderWay = (it) => it.event <= at && it.receiver[0] === "n" && !it.delivered.some((event) => event <= at);

function chip(it) {
  const to = it.sender === it.receiver ? "itself" : party(it.receiver);
  const open = { type: "button", "data-sent": it.number, onclick: () => showSent(it.number) };
  return el("li", { class: it.event === at && "new" },
    el("button", open, `${it.number} ${it.kind}`, el("small", {}, `${party(it.sender)} to ${to}`)));
}

function renderWay() {
  const under = Object.values(data.sent).filter(isUnderWay);
  const [later, never] = [true, false].map((is) => under.filter((it) => it.delivered.length > 0 === is));
  const part = (sent, title) => (sent.length ? [note(title), el("ul", { class: "chips" }, sent.map(chip))] : []);
  const parts = [...part(later, "This script delivers later:"), ...part(never, "This script never delivers:")];
  $("way").replaceChildren(...(parts.length ? parts : [none("No datagram.")]));
}

// The list.

const printed = (event) => data.texts[data.events[event].prints];

/** The nodes that held a vote for a proposal at an event up to now. */
function voters(place) {
  const states = data.after.slice(0, at + 1).flatMap((after) => Object.entries(after));
  const voted = states.filter(([, state]) => data.states[state].votes.some((it) => it.proposal === place));
  return rising([...new Set(voted.map(([node]) => node))]);
}

function counters(position) {
  const lines = data.events.slice(0, at + 1).flatMap((_, event) => printed(event)).map((line) => line.split(" "));
  return rising([...new Set(lines.filter((it) => it[0] === "counted" && it[2] === position).map((it) => it[1]))]);
}

function voted(place) {
  const it = data.proposals[place], names = voters(place);
  return el("p", { class: "is-vote" }, `${names.length ? numbers(names) : "none"} of ${numbers(it.to)}, `,
    ballot(it.ballot));
}

const HEADS = ["Position", "Command", "Voted for by", "Counted by", "Executed by"];

function listRow([position, places]) {
  const commands = new Set(places.map((place) => command(data.proposals[place].command)));
  const ran = rising(Object.keys(data.after[at]).filter((node) => stateOf(node).executed >= position));
  const who = (names) => (names.length ? el("span", { class: "yes" }, numbers(names)) : none("none"));
  const cells = [[...commands].map((it) => el("p", {}, it)), places.map(voted), who(counters(position)), who(ran)];
  const [head, ...heads] = HEADS;
  return el("tr", {}, el("th", { scope: "row", "data-head": head }, position),
    cells.map((it, place) => el("td", { "data-head": heads[place] }, el("div", {}, it))));
}

function renderList() {
  const places = [...data.proposals.keys()].filter((place) => data.proposals[place].event <= at);
  const rows = Object.entries(grouped(places, (place) => data.proposals[place].position ?? "?"));
  const heads = el("tr", {}, HEADS.map((it) => el("th", { scope: "col" }, it)));
  const table = el("table", {}, el("thead", {}, heads), el("tbody", {}, rows.map(listRow)));
  const chosen = note("A command is chosen once a majority has voted for it in one ballot, counted or not.");
  $("list").replaceChildren(...(rows.length ? [table, chosen] : [none("Nothing is proposed yet.")]));
}

// The picture of an event: a lane for each node and client, what came, and below it each line that was printed. A
// narrow one has only the clients of this event.

function laneNames(isNarrow) {
  const { line, prints } = data.events[at];
  const grouped = line.startsWith("group ") ? line.split(" ").slice(2) : [];
  const named = [line, ...data.texts[prints]].map((it) => it.match(/^(?:deliver|sent) (\d+)/)?.[1]);
  const numbers = [...grouped, ...named];
  const sent = isNarrow ? numbers.filter((it) => data.sent[it]).map((it) => data.sent[it]) : Object.values(data.sent);
  const names = new Set(sent.flatMap((it) => [it.sender, it.receiver]));
  Object.keys(data.after[last]).forEach((node) => names.add(`n${node}`));
  return [...names].sort((one, other) => one[0].localeCompare(other[0]) || number(one) - number(other));
}

class Stage {
  constructor(names, wide) {
    this.names = names;
    this.wide = Math.max(280, wide);
    this.made = [];
    this.y = 30;
    this.step = Math.min(200, (this.wide - 80) / Math.max(1, names.length - 1));
    this.x = Object.fromEntries(names.map((name, place) => [name, Math.round(40 + place * this.step)]));
  }

  row() {
    this.y += 27;
    return this.y;
  }

  /** Which side of a lane has room for words: 1 is the right one. */
  side(x) {
    return x > this.wide * 0.6 ? -1 : 1;
  }

  text(x, y, words, kind = "", anchor = "middle") {
    this.made.push(svg("text", { x, y, class: kind, "text-anchor": anchor }, words));
  }

  beside(x, y, words, kind, gap = 12) {
    this.text(x + this.side(x) * gap, y + 4, words, kind, this.side(x) > 0 ? "start" : "end");
  }

  line(drawn, kind) {
    this.made.push(svg("path", { d: drawn, class: kind }));
  }

  datagram(it, kind) {
    const y = this.row(), from = this.x[it.sender], to = this.x[it.receiver], words = `${it.number} ${it.kind}`;
    if (from === to) return this.loop(from, y, words, kind);
    const side = to > from ? 1 : -1;
    this.line(`M${from} ${y}H${to - side * 8}`, kind);
    this.line(`M${to - side} ${y}l${-side * 9} -4.5v9z`, "head");
    this.text((from + to) / 2, y - 6, words);
  }

  loop(x, y, words, kind) {
    const side = this.side(x), out = x + side * 26;
    this.line(`M${x} ${y - 6}C${out} ${y - 9} ${out} ${y + 9} ${x + side * 8} ${y + 6}`, kind);
    this.line(`M${x + side} ${y + 6}l${side * 9} -4v8z`, "head");
    this.beside(x, y, words, "", 30);
  }

  event(x, words) {
    const y = this.row();
    this.made.push(svg("circle", { class: "event", cx: x, cy: y, r: 4.5 }));
    this.beside(x, y, words, "quiet");
  }

  mark(x, words, kind) {
    const y = this.row();
    this.line(kind === "fault" ? `M${x - 5} ${y - 5}l10 10m0 -10l-10 10` : `M${x - 6} ${y - 6}l12 6l-12 6z`, kind);
    this.beside(x, y, words, "name");
  }

  finish(isUpNow) {
    const title = (name) => (this.step < 64 ? name : party(name));
    const lanes = this.names.flatMap((name) => [
      svg("text", { x: this.x[name], y: 16, class: "name", "text-anchor": "middle" }, title(name)),
      svg("path", { class: isUpNow(name) ? "lane" : "down", d: `M${this.x[name]} 26V${this.y + 20}` }),
    ]);
    const frame = { viewBox: `0 0 ${this.wide} ${this.y + 22}`, role: "img", "aria-label": "The same as a picture" };
    return svg("svg", frame, lanes, this.made);
  }
}

// The line of an event that gives node `to` alone what this word of a group gives it.
function lineOf(word, to) {
  if (word.startsWith("nudge")) return word.replace("nudge", `nudge ${to}`);
  return word === "t" ? `tick ${to}` : `deliver ${word}`;
}

function drawEvent(stage, line) {
  const [verb, to, ...words] = line.split(" ");
  if (verb === "deliver" && data.sent[to]) return stage.datagram(data.sent[to], "arrow");
  const together = verb === "group" ? words.join(" ").match(/nudge (?:withheld|fed)|[^ ]+/g) : [];
  if (together.length) return together.forEach((it) => drawEvent(stage, lineOf(it, to)));
  const isOfNode = !["client", "genesis", "deliver"].includes(verb) && stage.x[`n${to}`] != null;
  if (isOfNode) stage.event(stage.x[`n${to}`], [verb, ...words].join(" ").slice(0, 24));
}

function drawLine(stage, line) {
  const [kind, who, ...words] = line.split(" "), x = stage.x[`n${who}`];
  if (kind === "sent") {
    const isThere = words[1][0] === "c";
    stage.datagram(data.sent[who], isThere ? "arrow" : "arrow leaves");
  }
  if (kind === "counted" || kind === "ran") stage.mark(x, `${kind} ${words[0]}`, "done");
  if (kind === "answered") stage.mark(x, words.slice(2).join(" "), "done");
  if (kind === "fault" || kind === "stopped") stage.mark(x, line.replace(/ \d+/, ""), "fault");
}

function renderStage() {
  const wide = $("stage").clientWidth, stage = new Stage(laneNames(wide < 520), wide);
  drawEvent(stage, data.events[at].line);
  printed(at).forEach((line) => drawLine(stage, line));
  const isUpNow = (name) => name[0] === "n" && stateOf(number(name)) != null && isUp(stateOf(number(name)));
  const caption = el("figcaption", { class: "note" }, "Solid arrows arrive, dashed ones set out.");
  $("stage").replaceChildren(...(at && stage.names.length ? [stage.finish(isUpNow), caption] : []));
}

// Details.

function openDetails(title, ...body) {
  $("details-title").textContent = title;
  $("details-body").replaceChildren();
  add($("details-body"), body);
  if (!$("details").open) $("details").showModal();
  $("details").scrollTop = 0;
}

const lines = (texts) => (texts.length ? texts.join("\n") : "(nothing)");

function showNode(node) {
  const state = stateOf(node);
  const stops = ["A stop that keeps all that is written", "A stop that keeps what is synced"];
  const runs = (isUp(state) ? stops : ["A restart"]).map((title, place) => {
    const { more, prints } = state.runs[place];
    const how = ["The script up to ", link(at), ", then ", more.join(", "), ":"];
    return [el("h3", {}, title), note(how), el("pre", {}, lines(data.texts[prints]))];
  });
  const how = ["What ", el("code", {}, "locks sim --state"), " prints of its disks after ", link(state.at), ":"];
  const disks = [el("h3", {}, "Its disks, as inspect reads them"), note(how)];
  const told = el("pre", { id: "inspect" }, lines(data.texts[state.inspect]));
  openDetails(`Node ${node} after #${at}, ${state.life}`, held(state), disks, told, runs);
}

function showSent(place) {
  const it = data.sent[place], later = data.events[at].if[place];
  const links = it.delivered.flatMap((event, place) => [place ? ", " : "", link(event)]);
  const arrives = ["Arrives at", links.length ? links : "no event of this script"];
  openDetails(`Datagram ${it.number}: ${it.kind}`, el("p", {}, `It ${data.kinds[it.kind]}.`), terms([
    ["From", party(it.sender)], ["To", party(it.receiver)], ["Sent at", link(it.event)],
    it.receiver[0] === "n" && arrives, it.of && ["Replies to", `datagram ${it.of}, ${data.sent[it.of].kind}`],
    it.words && ["Says", it.words], it.ballot != null && ["Ballot", ballot(it.ballot)],
    it.proposal != null && ["Command", proposal(it.proposal)],
  ]), later != null && [el("h3", {}, `If it came right after #${at}`), el("pre", {}, lines(data.texts[later]))]);
}

// Steps.

function renderLines() {
  document.querySelectorAll("#lines a").forEach((it, place) => {
    it.className = place > at ? "later" : "";
    it.tabIndex = place === at ? 0 : -1;
    if (place === at) it.setAttribute("aria-current", "step");
    else it.removeAttribute("aria-current");
  });
  const list = $("lines"), now = list.children[at];
  list.scrollTop = now.offsetTop - list.offsetTop - (list.clientHeight - now.clientHeight) / 2;
}

function renderSteps() {
  $("at").textContent = `${at} of ${last}`;
  $("where").value = at;
  $("where").setAttribute("aria-valuetext", `event ${at}: ${data.events[at].line}`);
  for (const id of ["first", "back"]) $(id).setAttribute("aria-disabled", at === 0);
  for (const id of ["next", "last"]) $(id).setAttribute("aria-disabled", at === last);
  $("title").textContent = `Event ${at}`;
  $("says").replaceChildren(...data.events[at].says.map((it) => el("p", {}, it)));
}

function show(event) {
  const to = Math.min(last, Math.max(0, event));
  if (to === at) return;
  at = to;
  history.replaceState(null, "", `#${at}`);
  for (const render of [renderSteps, renderLines, renderStage, renderNodes, renderWay, renderList]) render();
}

function fromHash() {
  const found = location.hash.match(/^#(\d+)$/);
  if (found) $("details").close();
  show(found ? Number(found[1]) : Math.max(at, 0));
}

const KEYS = { ArrowLeft: () => at - 1, ArrowRight: () => at + 1, Home: () => 0, End: () => last };

function onKey(event) {
  const isOthers = [$("where"), $("list")].includes(event.target) || $("details").open;
  if (isOthers || event.altKey || event.ctrlKey || event.metaKey || !KEYS[event.key]) return;
  event.preventDefault();
  show(KEYS[event.key]());
}

function start() {
  const row = (event, place) =>
    el("li", {}, el("a", { href: `#${place}` }, el("span", {}, place), el("span", {}, event.line)));
  $("lines").replaceChildren(...data.events.map(row));
  $("where").max = last;
  $("where").addEventListener("input", () => show(Number($("where").value)));
  const steps = { first: KEYS.Home, back: KEYS.ArrowLeft, next: KEYS.ArrowRight, last: KEYS.End };
  for (const [id, to] of Object.entries(steps)) $(id).addEventListener("click", () => show(to()));
  document.addEventListener("keydown", onKey);
  addEventListener("hashchange", fromHash);
  addEventListener("resize", renderStage);
  $("details").addEventListener("click", (event) => event.target === $("details") && $("details").close());
  fromHash();
}

start();
