// Rungs: their drawings, which the server makes, and what of them changes with values. No text from outside becomes HTML.

export const $ = (id) => document.getElementById(id);

// ---- Values, and who is to be told of them

export let values = new Map(); // by the place's name in lower case
const readers = {ladder: new Map(), side: new Map()}; // of each part: by the same, what is to be drawn anew
const movable = {ladder: [], side: []}; // of each part: what is to be drawn anew whenever a subscript may have changed
let part = "ladder"; // which part is being drawn

export const valueOf = (place) => values.get(place.toLowerCase());
export const nameOf = (place) => typeof place === "string" ? place
  : place.map((piece) => typeof piece === "string" ? piece : valueOf(piece.p) ?? "?").join("");
export const shown = (value) => value === undefined ? "…" : String(value);

// Calls `draw` now, and whenever the value of the place may be another.
export function follow(place, draw) {
  const again = () => draw(valueOf(nameOf(place)));
  if (typeof place === "string") {
    const name = place.toLowerCase();
    if (!readers[part].has(name)) readers[part].set(name, []);
    readers[part].get(name).push(again);
  } else movable[part].push(again);
  again();
}

// Draws a part anew, whose readers are new with it.
export function redrawn(name, draw) {
  readers[name] = new Map();
  movable[name] = [];
  part = name;
  draw();
}

export function refreshed(name) {
  for (const again of [...readers[name].values()].flat()) again();
  for (const again of movable[name]) again();
}

export function takeValues(pairs, whole) {
  if (whole) values = new Map();
  const changed = [];
  for (const [name, value] of pairs) {
    const lower = name.toLowerCase();
    if (values.get(lower) !== value) changed.push(lower);
    values.set(lower, value);
  }
  if (whole) return;
  for (const lower of changed) for (const name of ["ladder", "side"]) for (const again of readers[name].get(lower) || []) again();
  if (changed.length) for (const again of movable.ladder) again();
}

// ---- Elements

export function element(tag, fields = {}, ...inner) {
  const made = document.createElement(tag);
  for (const [name, value] of Object.entries(fields)) {
    if (name.startsWith("on")) made.addEventListener(name.slice(2), value);
    else if (name in made && name !== "list") made[name] = value;
    else made.setAttribute(name, value);
  }
  made.append(...inner);
  return made;
}

export function shape(tag, fields = {}, ...inner) {
  const made = document.createElementNS("http://www.w3.org/2000/svg", tag);
  for (const [name, value] of Object.entries(fields)) made.setAttribute(name, value);
  made.append(...inner);
  return made;
}

export const short = (text) => text.length > 26 ? `${text.slice(0, 12)}…${text.slice(-13)}` : text;

// ---- A drawing of the server, as shapes that follow their values

const TAGS = new Set(["svg", "g", "path", "rect", "line", "text", "title"]);
let onName = () => {};
export const whenNamed = (call) => { onName = call; };

function build([tag, fields, text, inner, live]) {
  if (!TAGS.has(tag)) throw new Error(`no shape: ${tag}`);
  const made = shape(tag, fields);
  if (text) made.textContent = text;
  for (const each of inner) made.append(build(each));
  if (live.name) {
    made.classList.add("live");
    made.addEventListener("click", () => onName(nameOf(live.name)));
  }
  if (live.value) follow(live.value, (seen) => { made.textContent = shown(seen); });
  if (live.lit) followLit(made, live.lit);
  return made;
}

const COMPARED = {
  bit: (a) => a === 1, not: (a) => a === 0, EQU: (a, b) => a === b, NEQ: (a, b) => a !== b, LES: (a, b) => a < b, LEQ: (a, b) => a <= b, GRT: (a, b) => a > b,
  GEQ: (a, b) => a >= b, LIM: (low, test, high) => low <= high ? low <= test && test <= high : test >= low || test <= high,
  MEQ: (source, mask, compare) => (source & mask) === (compare & mask),
};

function followLit(made, {kind, places}) {
  const redraw = () => {
    const numbers = places.map((place) => typeof place === "number" ? place : place === null ? undefined : valueOf(nameOf(place)));
    made.classList.toggle("on", !numbers.includes(undefined) && COMPARED[kind](...numbers));
  };
  for (const place of places) if (place !== null && typeof place !== "number") follow(place, redraw);
  redraw();
}

// ---- Rows: those of the server, with the pending edits of this page

export let rows = [];
let drafts = new Map(); // by program/routine: pending edits {kind, index, text}
export const pick = {at: 0}; // the row that is chosen

const key = (view) => `${view.program}/${view.routine}`;
export const draftsOf = (view) => drafts.get(key(view)) || [];
export const setDrafts = (view, change) => drafts.set(key(view), change(draftsOf(view)));

export function allRows(view) {
  const found = [], mine = draftsOf(view);
  const put = (index) => mine.filter((draft) => draft.kind === "i" && draft.index === index).forEach((draft) => found.push({mark: "i", number: null, text: draft.text, draft}));
  let base = 0;
  for (const [mark, number, text] of view.rows) {
    if (number !== null) put(number);
    const draft = number === null ? null : mine.find((each) => each.kind !== "i" && each.index === number);
    if (draft?.kind === "r") found.push({mark: "i", number: null, text: draft.text, draft});
    found.push({mark: mark + (draft?.kind || ""), number, text, runs: view.testing ? !["R", "D"].includes(mark) : mark !== "I", draft});
    if (number !== null) base = number + 1;
  }
  if (view.first + view.rows.length >= view.count) put(base);
  if (!found.length) found.push({mark: "", number: 0, text: "(no rung)", runs: false, empty: true});
  return found;
}

// ---- Drawing them

const drawings = new Map(); // by program, width and text
const MOST_DRAWINGS = 3000, MOST_TEXTS = 60, MOST_BYTES = 60000;
const widthNow = () => Math.max(Math.floor(($("ladder").clientWidth - 8) / 10) * 10, 280);
const drawingKey = (program, width, text) => `${program}\n${width}\n${text}`;

async function fetched(program, width, texts, ask) {
  if (drawings.size > MOST_DRAWINGS) drawings.clear();
  let batch = [], size = 0;
  const send = async () => {
    const told = await ask("draw", {program, width, texts: batch});
    batch.forEach((text, index) => drawings.set(drawingKey(program, width, text), told.drawn ? told.drawn[index] : {fault: 0}));
    batch = []; size = 0;
  };
  for (const text of texts) {
    if (batch.length === MOST_TEXTS || size + text.length * 3 > MOST_BYTES) await send();
    batch.push(text);
    size += text.length * 3;
  }
  if (batch.length) await send();
}

let drawnKey = "", latest = 0;
export async function drawLadder(now, ask, after) {
  const view = now.view, width = widthNow(), mine = ++latest, made = allRows(view);
  const missing = [...new Set(made.filter((row) => !row.empty).map((row) => row.text))].filter((text) => !drawings.has(drawingKey(view.program, width, text)));
  if (missing.length) {
    await fetched(view.program, width, missing, ask);
    if (mine !== latest) return;
  }
  const running = now.mode === "run", wanted = JSON.stringify([view.program, view.routine, width, running, made.map(({mark, number, text, runs}) => [mark, number, text, runs])]);
  rows = made;
  pick.at = Math.min(pick.at, rows.length - 1);
  if (wanted === drawnKey) refreshed("ladder");
  else redrawn("ladder", () => drawRows(view.program, width, running));
  drawnKey = wanted;
  after();
}

function drawRows(program, width, running) {
  const ladder = $("ladder"), top = ladder.scrollTop, focused = ladder.contains(document.activeElement);
  ladder.replaceChildren(...rows.map((row, index) => {
    const outer = element("div", {className: "rung", role: "option", tabIndex: index === pick.at ? 0 : -1, "aria-selected": String(index === pick.at),
      "aria-label": `${row.mark ? `edit ${row.mark}, ` : ""}rung ${row.number ?? "new"}: ${row.text}`});
    const drawing = row.empty ? {shape: null} : drawings.get(drawingKey(program, width, row.text));
    if (drawing.shape) outer.append(drawRung(row, drawing.shape, running));
    else {
      outer.classList.add("raw");
      outer.textContent = `${row.mark} ${row.text}`;
    }
    return outer;
  }));
  ladder.scrollTop = top;
  if (focused) ladder.children[pick.at]?.focus();
}

function drawRung(row, listed, running) {
  const made = build(listed);
  made.setAttribute("role", "img");
  made.setAttribute("aria-hidden", "true");
  made.querySelector(".number").textContent = row.number ?? "";
  made.querySelector(".mark").textContent = row.mark;
  if (/[RDrd]/.test(row.mark)) made.querySelector(".body").classList.add("gone");
  if (row.runs && running) for (const rail of made.querySelectorAll(".rail")) rail.classList.add("on");
  return made;
}

export function choose(index) {
  if (index < 0 || index >= rows.length) return;
  const all = $("ladder").children;
  for (const each of [all[pick.at], all[index]]) {
    each?.setAttribute("aria-selected", String(each === all[index]));
    if (each) each.tabIndex = each === all[index] ? 0 : -1;
  }
  pick.at = index;
}

// The instruction at fault of a refusal E8 C R I: R counts the merged routine's rungs.
export function markWrong(rung, at) {
  const merged = rows.map((row, index) => [row, index]).filter(([row]) => !/[RDrd]/.test(row.mark) && !row.empty)[rung];
  const drawn = merged && $("ladder").children[merged[1]];
  drawn?.querySelectorAll("g.instruction")[at]?.classList.add("wrong");
  drawn?.scrollIntoView({block: "nearest"});
}
