// What stands around the rungs: the head, the tree, watch, I/O words, forces, faults, trend, and what happened.

import {$, element, follow, redrawn, refreshed, shape, short, shown, valueOf} from "./ladder.js";

// What a panel needs of the page: how it asks the server, acts, and whether it has the controls.
let page = null;
export const setPage = (given) => { page = given; };

// A panel is drawn anew only if its fields are others; then what had the focus gets it back by its data-key.
const drawn = new Map();
function rebuilt(id, fields, build) {
  const wanted = JSON.stringify(fields), panel = $(id);
  if (drawn.get(id) === wanted) return false;
  drawn.set(id, wanted);
  const focused = panel.contains(document.activeElement) ? document.activeElement.dataset.key : null;
  panel.replaceChildren(...build());
  if (focused) [...panel.querySelectorAll("[data-key]")].find((each) => each.dataset.key === focused)?.focus();
  return true;
}
const button = (key, text, click, fields = {}) => element("button", {textContent: text, "data-key": key, onclick: click, ...fields});

// ---- The head

export function drawHead(now) {
  const {mode, at, length, tick, step} = now, lost = Boolean(now.lost);
  const text = lost ? "No controller" : now.busy ? "…" : {run: "Run", program: "Program", faulted: "Faulted ⚠"}[mode], kind = lost ? "badge" : `badge ${mode}`;
  if ($("mode").textContent !== text) $("mode").textContent = text;
  $("mode").className = kind;
  for (const [id, value] of [["tick", tick], ["step", step], ["at", at], ["length", length]]) $(id).textContent = value.toLocaleString("en");
  $("reached").textContent = now.playing && now.reached ? `× ${now.reached}` : "";
  $("past-note").hidden = now.playing || at >= length;
  $("past").classList.toggle("past", at < length);
  $("scrub").max = length;
  if (document.activeElement !== $("scrub") || now.playing) $("scrub").value = at;
  $("play").textContent = now.playing ? "❚❚ Pause" : "▶ Play";
}

export function drawMarks(now) {
  const width = $("marks").clientWidth, all = now.length || 1;
  const d = now.marks.map(([at]) => `M${(8 + at / all * (width - 16)).toFixed(1)} 0v6`).join("");
  $("marks").replaceChildren(shape("path", {d}));
}

export function drawStops(now) {
  rebuilt("stops", now.stops, () => now.stops.map(([, , , text], index) => element("span", {className: "chip"}, text,
    button(`stop ${text}`, "×", () => page.ask("unstop", {index}), {"aria-label": `No stop at ${text}`}))));
}

// What the last major fault means; and all that are in the log.
export function drawFaults(now) {
  const said = ([line, codes]) => [line.replace(/ -$/, ""), ...codes.map(([code, what]) => `${code}: ${what}`)].join(" – ");
  const last = now.faults.findLast(([line]) => line.startsWith("major"));
  const text = now.mode === "faulted" && last ? `${said(last)} Then Clear fault and Run mode.` : "";
  if ($("faulted").textContent !== text) $("faulted").textContent = text;
  $("faulted").hidden = !text;
  rebuilt("faults", now.faults, () => now.faults.length ? now.faults.toReversed().map((fault) => element("li", {textContent: said(fault)})) : [element("li", {className: "quiet", textContent: "none"})]);
}

// ---- The tree

export function drawTree(now, layout, view) {
  const versions = new Map(now.versions);
  rebuilt("tree", [now.edited, now.versions, now.view.program, now.view.routine], () => {
    const owner = new Map();
    for (const task of layout.tasks) for (const name of task.programs) owner.set(name.toLowerCase(), task);
    const routine = (each, name) => element("li", {}, button(`${each.name}/${name}`, name === each.main ? `${name} (main)` : name, () => view(each.name, name, 0),
      {"aria-current": String(now.view.program === each.name && now.view.routine === name)}));
    const program = (each) => element("li", {}, `${each.name}${now.edited.includes(each.name) ? " ✎ edits" : ""} v${versions.get(each.name) ?? 0}`,
      element("ul", {}, ...each.routines.map((name) => routine(each, name))));
    const task = (each) => element("li", {className: "task"}, each.name, element("small", {}, [each.kind, each.priority && `priority ${each.priority}`,
      each.period && `${each.period} ms`, `watchdog ${each.watchdog ?? 500} ms`, each.inhibited && "inhibited"].filter(Boolean).join(", ")),
      element("ul", {}, ...layout.programs.filter((one) => owner.get(one.name.toLowerCase()) === each).map(program)));
    const connection = (each) => element("li", {}, each.name, element("small", {}, [`${each.direction}, ${each.words.length} word${each.words.length > 1 ? "s" : ""}`,
      each.tag, each.trigger && `triggers ${each.trigger}`].filter(Boolean).join(", ")));
    return [...layout.tasks.map(task), ...layout.connections.length ? [element("li", {className: "task"}, "Connections", element("ul", {}, ...layout.connections.map(connection)))] : []];
  });
}

// ---- Watch and forces

const forceOf = (now, connection, word) => now.forces.find(([name, at]) => name === connection.name.toLowerCase() && at === word);

// The bit or word of a connection that a tag names, if it does.
function ioOf(layout, name) {
  const wanted = name.toLowerCase();
  for (const connection of layout.connections) for (const [word, {place, names}] of connection.words.entries()) {
    if (!place) continue;
    if (place.toLowerCase() === wanted) return {connection, word, mask: -1};
    for (let bit = 0; bit < 32; bit++) if (`${place}.${bit}`.toLowerCase() === wanted) return {connection, word, mask: 1 << bit};
    for (const [bit, alias] of names) if (alias.toLowerCase() === wanted) return {connection, word, mask: 1 << bit};
  }
  return null;
}

// Force on, off, or none of a bit: of its word the other forced bits stay.
function forceChoice(now, layout, name) {
  const io = ioOf(layout, name);
  if (!io) return "";
  const [, , mask = 0, value = 0] = forceOf(now, io.connection, io.word) || [];
  if (io.mask === -1) return element("span", {className: mask ? "forced" : "quiet", textContent: mask ? `mask ${mask}` : "–"});
  const is = !(mask & io.mask) ? "–" : value & io.mask ? "on" : "off";
  const change = (event) => {
    const to = event.target.value;
    page.act(31, `force ${io.connection.name} ${io.word} ${to === "–" ? mask & ~io.mask : mask | io.mask} ${to === "on" ? value | io.mask : value & ~io.mask}`);
  };
  return element("select", {"aria-label": `Force ${name}`, "data-key": `force ${name}`, className: is === "–" ? "" : "forced", onchange: change},
    ...["–", "on", "off"].map((word) => element("option", {textContent: word, selected: word === is})));
}

function watchRow(now, layout, [name, kind]) {
  const value = element("td", {className: "n"}), trended = now.trends.has(name);
  follow(name, (seen) => { value.textContent = shown(seen); value.classList.toggle("one", kind === "BOOL" && seen === 1); });
  return element("tr", {}, element("td", {}, button(`tag ${name}`, short(name), () => page.showTag(name), {title: `${name}: who writes and reads it`})),
    element("td", {className: "quiet", textContent: kind}), value, element("td", {}, forceChoice(now, layout, name)), element("td", {},
      button(`back ${name}`, "◀", () => page.ask("back", {place: name}), {title: `Back to the last change of ${name}`, "aria-label": `Back to the last change of ${name}`}),
      button(`trend ${name}`, "∿", () => page.ask("trend", {place: name, on: !trended}), {title: "Trend", "aria-label": `Trend of ${name}`, "aria-pressed": String(trended)}),
      button(`drop ${name}`, "×", () => page.ask("watch", {place: name, on: false}), {title: "Watch no more", "aria-label": `Watch ${name} no more`})));
}

// ---- I/O words

function word(now, layout, connection, {place, names}, at) {
  const input = connection.direction === "in", force = forceOf(now, connection, at), bits = new Map(names), cells = [];
  // What was sent last: with a force, the tag has other bits.
  const sent = () => page.now().sent.find(([name, word]) => name === connection.name.toLowerCase() && word === at)?.[2] ?? (place ? valueOf(place) : 0) ?? 0;
  const leaves = (seen) => force && now.enabled ? (seen & ~force[2]) | (force[3] & force[2]) : seen;
  const toggle = (bit) => page.act(0, `in ${connection.name} ${at} ${sent() ^ (1 << bit)}`);
  const number = element("span", {className: "quiet"});
  const cell = (bit, text) => {
    const key = `bit ${connection.name} ${at} ${bit} ${text}`, fields = {title: `bit ${bit}${bits.has(bit) ? `: ${bits.get(bit)}` : ""}`, "data-bit": `${connection.name}.${at}.${bit}`};
    const made = input ? button(key, text, () => toggle(bit), fields) : element("span", {textContent: text, ...fields});
    cells.push([bit, made]);
    return made;
  };
  const named = element("div", {className: "named"}, ...names.map(([bit, name]) => cell(bit, name)));
  const all = element("div", {className: "bits"}, ...Array.from({length: 32}, (_, index) => cell(31 - index, String(31 - index))));
  const redraw = () => {
    const tag = place ? valueOf(place) : undefined, seen = input ? tag ?? sent() : leaves(tag ?? 0);
    number.textContent = input || place ? ` = ${seen}` : " of several tags";
    for (const [bit, made] of cells) {
      made.dataset.on = String((seen >>> bit & 1) === 1);
      made.classList.toggle("forced", Boolean(force && force[2] >>> bit & 1));
      if (input) made.setAttribute("aria-pressed", made.dataset.on);
    }
  };
  if (place) follow(place, redraw);
  else redraw();
  const more = !input && !place ? "" : folding(`${connection.name} ${at}`, !names.length && connection.words.length === 1, element("summary", {className: "quiet", textContent: "all bits", "data-key": `all ${connection.name} ${at}`}), all);
  const forced = force && force[2] ? element("span", {className: "forced", textContent: ` ${now.enabled ? "FORCED" : "force installed, not enabled"}: mask ${force[2]} value ${force[3]}`}) : "";
  return element("div", {className: "word"}, element("h3", {}, `${input ? "in" : "out"} ${connection.name} word ${at}`, number, forced), names.length ? named : "", more);
}

const opened = new Map(); // which folded parts are open
function folding(name, open, ...inner) {
  const made = element("details", {open: opened.get(name) ?? open}, ...inner);
  made.addEventListener("toggle", () => opened.set(name, made.open));
  return made;
}

const typed = new Map(); // what stands in the form, which is drawn anew
function forceForm(now, layout) {
  if (!layout.connections.length) return [];
  const field = (name, size = 6) => element("input", {value: typed.get(name) ?? "", "aria-label": name, "data-key": `force ${name}`, placeholder: name, size,
    oninput: (event) => typed.set(name, event.target.value)});
  const send = (event) => {
    event.preventDefault();
    page.act(31, `force ${["connection", "word", "mask", "value"].map((name) => typed.get(name) ?? "").join(" ")}`);
  };
  const verb = (word) => button(`force ${word}`, word, () => page.act(31, `force ${word}`));
  return [folding("forces", now.forces.length > 0, element("summary", {"data-key": "forces", textContent: now.enabled ? "Forces: enabled" : now.forces.length ? "Forces: installed, not enabled" : "Forces"}),
    element("form", {id: "force", onsubmit: send}, field("connection", 8), field("word", 3), field("mask"), field("value"), element("button", {textContent: "Force", "data-key": "force it"})),
    element("div", {}, verb("enable"), " ", verb("disable"), " ", verb("remove")))];
}

export function drawSide(now, layout) {
  const fields = [now.table, now.forces, now.enabled, [...now.trends.keys()]];
  const words = () => [...layout.connections.flatMap((connection) => connection.words.map((each, at) => word(now, layout, connection, each, at))), ...forceForm(now, layout)];
  let fresh = false;
  redrawnIf(() => {
    fresh = rebuilt("watch", fields, () => now.table.map((row) => watchRow(now, layout, row)));
    rebuilt("io", fields, words);
  }, JSON.stringify(fields));
  if (!fresh) refreshed("side");
}

let sideKey = "";
function redrawnIf(draw, wanted) {
  if (wanted === sideKey) return;
  sideKey = wanted;
  redrawn("side", draw);
}

export function drawUses(name, uses, text, view) {
  $("tag").hidden = false;
  $("h-tag").textContent = name;
  $("tag-text").textContent = text;
  const rung = ([, program, routine, number, , mnemonic]) => button(`use ${program} ${routine} ${number} ${mnemonic}`, `${mnemonic} in ${program}/${routine} rung ${number}`, () => view(program, routine, Number(number)));
  $("uses").replaceChildren(
    element("li", {}, button("use watch", "watch it", () => page.ask("watch", {place: name, on: true})), ", ", button("use back", "back to its last change", () => page.ask("back", {place: name}))),
    ...uses.map((use) => element("li", {}, use[0] === "write" ? "written by " : "read by ", rung(use))));
}

// ---- Trend

export const whole = {told: null}; // of the whole past, as the server told it last

const words = (text, x, y, fields = {}) => shape("text", {x, y, ...fields}, text);

export function drawTrend(now) {
  const svg = $("trend"), w = svg.clientWidth, h = svg.clientHeight, all = [...now.trends], past = $("span").value === "all" ? whole.told : null;
  const end = past ? past.tick : now.tick, start = past ? 0 : Math.max(0, end - Number($("span").value) || 0), left = Math.min(150, w / 4), right = 70, each = (h - 14) / (all.length || 1);
  const x = (tick) => left + (tick - start) / Math.max(end - start, 1) * (w - left - right);
  const made = [words(start.toLocaleString("en"), left, h - 2, {class: "number"}), words(end.toLocaleString("en"), w - right, h - 2, {class: "number", "text-anchor": "end"})];
  all.forEach(([name, points], index) => {
    const told = past && past.points.find(([other]) => other === name)?.[1];
    const used = told || points.slice(Math.max(points.findLastIndex(([tick]) => tick <= start), 0)).map(([tick, value]) => [tick, value, value, value]);
    let low = 0, high = 1;
    for (const [, least, most] of used) { low = Math.min(low, least); high = Math.max(high, most); }
    const bottom = index * each + each - 6, y = (value) => bottom - (value - low) / (high - low) * (each - 14);
    let d = "";
    for (const [tick, least, most, value] of used) {
      const at = x(Math.min(Math.max(tick, start), end)).toFixed(1), level = y(value).toFixed(1);
      d += d ? `H${at}${least < most ? `V${y(least).toFixed(1)}V${y(most).toFixed(1)}` : ""}V${level}` : `M${at} ${level}`;
    }
    if (d) made.push(shape("path", {d: `${d}H${x(end).toFixed(1)}`}));
    made.push(shape("path", {class: "axis", d: `M${left} ${bottom + 3}H${w - right}`}), words(short(name), 0, bottom - (each - 14) / 2 + 4), words(shown(valueOf(name)), w - right + 8, bottom - (each - 14) / 2 + 4, {class: "value"}));
    if (high > 1 || low < 0) made.push(words(String(high), left - 6, y(high) + 8, {class: "number", "text-anchor": "end"}), words(String(low), left - 6, y(low) + 2, {class: "number", "text-anchor": "end"}));
  });
  svg.replaceChildren(...made);
}

// ---- What happened: lines are put to the end, and taken from the front

const MOST_LINES = 200;
let listed = [];
const line = ([at, text]) => element("li", {}, element("button", {textContent: text, className: text.split(" ")[2], "data-at": at, title: `Go to right after this, event ${at}`,
  onclick: () => page.ask("go", {to: at})}));

export function drawLines(now) {
  const list = $("lines"), atEnd = list.scrollHeight - list.scrollTop - list.clientHeight < 30, wanted = now.lines.slice(-MOST_LINES);
  const same = (a, b) => a[0] === b[0] && a[1] === b[1];
  const skip = listed.length && wanted.length ? listed.findIndex((each) => same(each, wanted[0])) : -1;
  if (skip >= 0 && listed.slice(skip).every((each, index) => wanted[index] && same(each, wanted[index]))) {
    for (let gone = 0; gone < skip; gone++) list.firstChild.remove();
    list.append(...wanted.slice(listed.length - skip).map(line));
  } else list.replaceChildren(...wanted.map(line));
  listed = wanted;
  if (atEnd) list.scrollTop = list.scrollHeight;
}
