// The page of tools/online. The server says what is; this asks for it, hands it to whoever draws it, and sends what is asked for.

import {$, allRows, choose, draftsOf, drawLadder, element, markWrong, pick, rows, setDrafts, takeValues, values, whenNamed} from "./ladder.js";
import {drawFaults, drawHead, drawLines, drawMarks, drawSide, drawStops, drawTree, drawTrend, drawUses, setPage, whole} from "./panels.js";

const name = Array.from(crypto.getRandomValues(new Uint8Array(8)), (byte) => byte.toString(16).padStart(2, "0")).join("");
let layout = null;
let now = null; // the last snapshot, with what came since
let writer = true;
let ended = false;

// ---- Talking to the server: commands one after another, but for what only looks on, and a pause

let waiting = 0; // commands that aren't answered yet
let before = Promise.resolve();
const AT_ONCE = new Set(["pause", "draw", "whole", "usage"]);

async function send(command, fields) {
  waiting++;
  try {
    const answer = await fetch("do", {method: "POST", headers: {"Content-Type": "application/json"}, body: JSON.stringify({do: command, page: name, ...fields})});
    const told = await answer.json();
    if (told.refused) say(told.refused);
    return told;
  } catch {
    return {refused: "no answer"};
  } finally {
    waiting--;
  }
}

function ask(command, fields = {}) {
  if (AT_ONCE.has(command)) return send(command, fields);
  const answer = before.then(() => send(command, fields));
  before = answer;
  return answer;
}

const explained = (told) => told.said.map(([code, what]) => `${code}: ${what}`);

async function act(lane, text) {
  const told = await ask("act", {lane, text});
  if (told.answer && !told.answer.startsWith("ok")) say([`${text.split(" ").slice(0, 3).join(" ")}: ${told.answer}`, ...explained(told)].join("\n"));
  return told;
}

let silence = 0;
function say(text) {
  $("note").textContent = text;
  $("note").classList.add("shown");
  clearTimeout(silence);
  silence = setTimeout(() => $("note").classList.remove("shown"), 4000 + 40 * text.length);
}

const view = (program, routine, rung) => {
  pick.at = rung % 100;
  ask("view", {program, routine, rung});
};

async function showTag(tag) {
  const told = await ask("usage", {place: tag});
  if (told.uses) drawUses(tag, told.uses, "", view);
}

setPage({ask, act, showTag, now: () => now});
whenNamed(showTag);

// ---- What comes from the server

function listen() {
  const stream = new EventSource(`events?${name}`);
  const on = (kind, take) => stream.addEventListener(kind, (event) => take(JSON.parse(event.data)));
  on("snap", takeSnap);
  on("frame", takeFrame);
  on("busy", () => { if (now) { now.busy = true; drawHead(now); } });
  on("note", takeNote);
  on("stale", async () => takeSnap(await send("snap", {})));
  on("writer", (data) => {
    writer = data.writer === name;
    $("take").hidden = writer;
    $("writer").textContent = writer ? "" : "Another page has the controls";
    enable();
  });
  on("ended", () => {
    ended = true;
    stream.close();
    gone("It has ended, as asked for. The page shows what was last.");
  });
  stream.onopen = () => { $("gone").hidden = true; };
  stream.onerror = () => gone("Has it ended? The page goes on by itself if it comes back.");
}

function gone(text) {
  $("gone").hidden = false;
  $("gone-text").textContent = text;
  enable();
}

function takeNote(data) {
  say([data.text, ...explained(data)].join("\n"));
  if (data.written) drawUses(data.written.name, data.written.uses, `Has just changed${data.written.text ? ` ${data.written.text}` : ""}:`, view);
}

function takeSnap(data) {
  const moved = now && (now.view.program !== data.view.program || now.view.routine !== data.view.routine || now.view.first !== data.view.first);
  now = {...data, trends: new Map(data.trends)};
  takeValues(data.values, true);
  $("lost").hidden = !data.lost;
  document.body.classList.toggle("stale", Boolean(data.lost));
  if (data.lost) $("lost-text").textContent = [data.lost.text, ...explained(data.lost)].join(" ");
  if (moved) { closeEditor(); $("ladder").scrollTop = 0; }
  drawEdits();
  redrawLadder();
  drawAround();
  drawMarks(now);
  drawTrend(now);
  drawLines(now);
  enable();
  $("places").replaceChildren(...data.values.map(([place]) => element("option", {value: place})));
}

function drawAround() {
  drawHead(now);
  drawStops(now);
  drawFaults(now);
  drawTree(now, layout, view);
  drawSide(now, layout);
}

let frameDue = false;
function takeFrame(data) {
  if (!now || data.serial <= now.serial) return; // the snapshot shows it already
  const mode = now.mode;
  Object.assign(now, {...data, values: now.values, lines: now.lines.concat(data.lines).slice(-400), busy: false});
  takeValues(data.values, false);
  for (const [place, points] of data.trend) {
    const kept = now.trends.get(place) || [], last = kept.length ? kept[kept.length - 1][0] : -1;
    kept.push(...points.filter(([tick]) => tick > last));
    if (kept.length > 6000) kept.splice(0, 2000);
    now.trends.set(place, kept);
  }
  if (mode !== now.mode) redrawLadder();
  if (!frameDue) {
    frameDue = true;
    requestAnimationFrame(drawFrame);
  }
}

// What is drawn at a frame, whatever came; what nobody reads that fast, not each time.
let slowAt = 0, slowTimer = 0;
function drawFrame() {
  frameDue = false;
  drawHead(now);
  enable();
  const left = now.playing ? slowAt + 150 - performance.now() : 0;
  clearTimeout(slowTimer);
  if (left <= 0) drawSlow();
  else slowTimer = setTimeout(drawSlow, left);
}

function drawSlow() {
  slowAt = performance.now();
  drawAround();
  if ($("span").value !== "all") drawTrend(now);
  drawLines(now);
}

const redrawLadder = () => drawLadder(now, ask, enable);

// ---- Edits

function drawEdits() {
  const {program, routine, testing, owner, edits, first, count, rows: some} = now.view, mine = draftsOf(now.view).length;
  $("routine").textContent = `${program} / ${routine}`;
  $("edited").textContent = [edits ? `Edits of ${program}: ${edits} accepted by lane ${owner}, ${testing ? "and tested now: the merged rungs run" : "not tested: the old rungs run"}.` : "",
    mine ? `${mine} pending here, of 16 in one accept.` : ""].filter(Boolean).join(" ");
  $("edited").hidden = !mine && !edits;
  $("pages").hidden = count <= some.length;
  $("shown").textContent = `${first}–${first + some.length - 1} of ${count}`;
}

let editing = null; // the draft that stands in the editor
function openEditor(draft, title) {
  editing = draft;
  $("editor").hidden = false;
  $("editor-title").textContent = title;
  $("text").value = draft.text;
  $("text").focus();
}

function closeEditor() {
  editing = null;
  $("editor").hidden = true;
}

function changeDrafts(change) {
  setDrafts(now.view, change);
  $("fault").hidden = true;
  drawEdits();
  redrawLadder();
}

$("edit").onclick = () => {
  const row = rows[pick.at];
  if (row.draft && row.draft.kind !== "d") openEditor(row.draft, row.draft.kind === "r" ? `Rung ${row.draft.index}` : "New rung");
  else if (row.number !== null) openEditor({kind: "r", index: row.number, text: row.text}, `Rung ${row.number}`);
};
$("insert").onclick = () => {
  const row = rows[pick.at], index = row.number ?? row.draft.index;
  openEditor({kind: "i", index, text: ""}, `New rung before ${index}`);
};
$("delete").onclick = () => {
  const row = rows[pick.at];
  changeDrafts((mine) => row.draft ? mine.filter((each) => each !== row.draft) : [...mine, {kind: "d", index: row.number}]);
};
$("drop").onclick = closeEditor;
$("editor").onsubmit = (event) => {
  event.preventDefault();
  const draft = editing, text = $("text").value;
  closeEditor();
  changeDrafts((mine) => [...mine.filter((each) => each !== draft), {...draft, text}]);
  $("ladder").focus();
};

const lane = () => Number($("lane").value);
const acceptText = (mine) => `accept ${now.view.program} ${now.view.routine} ${mine.map((each) => each.kind === "d" ? `d ${each.index}` : `${each.kind} ${each.index} ${each.text}`).join(" | ")}`;
$("accept").onclick = async () => {
  const mine = draftsOf(now.view), at = {...now.view}, told = await ask("act", {lane: lane(), text: acceptText(mine)});
  if (told.answer?.startsWith("ok")) {
    setDrafts(at, () => []);
    changeDrafts((others) => others);
  } else if (told.answer) showFault(told, mine);
};
$("verify").onclick = async () => {
  const mine = draftsOf(now.view), told = await ask("verify", {lane: lane(), text: acceptText(mine)});
  if (told.answer?.startsWith("ok")) say("Accept would be answered ok.");
  else if (told.answer) showFault(told, mine);
};

// A refusal, with the text at fault and a caret below its place: E7 K T P is byte P of edit K's text.
function showFault(told, mine) {
  const parts = told.answer.split(" "), made = [told.answer, ...explained(told)].map((text) => element("div", {textContent: text}));
  if (parts[1] === "E7") {
    const text = mine[parts[2]].text.trim(), front = new TextDecoder().decode(new TextEncoder().encode(text).slice(0, Number(parts[4])));
    made.push(element("pre", {textContent: `${text}\n${" ".repeat(front.length)}▲`}));
  }
  if (parts[1] === "E8" && !now.view.first) markWrong(Number(parts[3]), Number(parts[4]));
  $("fault").replaceChildren(...made, element("button", {textContent: "Close", onclick: () => { $("fault").hidden = true; }}));
  $("fault").hidden = false;
}

for (const verb of ["test", "untest", "assemble"]) $(verb).onclick = () => act(lane(), `${verb} ${now.view.program}`);
$("cancel").onclick = () => {
  if (draftsOf(now.view).length) changeDrafts(() => []);
  else act(lane(), `cancel ${now.view.program}`);
};
$("lane").append(...Array.from({length: 31}, (_, index) => element("option", {value: String(index), textContent: String(index), selected: index === 1})));

function turn(by) {
  const {program, routine, first} = now.view;
  view(program, routine, Math.max(first + by * 100, 0));
}
$("earlier").onclick = () => turn(-1);
$("later").onclick = () => turn(1);

// ---- What may be done now

let rules = "";
function enable() {
  if (!now) return;
  const can = writer && !now.lost && !ended, row = rows[pick.at], mine = draftsOf(now.view).length, held = now.view.edits > 0, past = now.at < now.length;
  const base = row && !row.empty && (row.draft || row.number !== null && !row.mark);
  const may = {run: now.mode === "program", program: now.mode === "run", clear: now.mode === "faulted", play: layout.proved, cpu: true, "one-tick": true, scan: true,
    back: now.at > 0, "back-scan": now.at > 0, last: past, until: now.stops.length > 0, restore: true, scrub: true, check: true, again: true, end: true, edit: base,
    insert: row && (row.number !== null || row.mark === "i"), delete: base, accept: mine > 0, verify: mine > 0, test: held && !now.view.testing,
    untest: held && now.view.testing, assemble: held, cancel: held || mine > 0};
  const wanted = JSON.stringify([can, may, Boolean(row?.draft), now.cut]);
  if (wanted === rules) return;
  rules = wanted;
  for (const [id, yes] of Object.entries(may)) $(id).disabled = !(can || id === "again" && writer) || !yes;
  $("delete").textContent = row?.draft ? "Undo" : "Delete";
  $("restore").hidden = !now.cut;
}

// ---- Controls

const steps = () => Number($("steps").value);
$("run").onclick = () => act(31, "mode run");
$("program").onclick = () => act(31, "mode program");
$("clear").onclick = () => act(31, "clear");
$("play").onclick = () => now.playing ? ask("pause") : ask("play", {speed: Number($("speed").value), steps: steps()});
for (const id of ["speed", "steps"]) $(id).onchange = () => { if (now.playing) ask("play", {speed: Number($("speed").value), steps: steps()}); };
$("cpu").onclick = () => ask("cpu", {count: 1});
$("one-tick").onclick = () => ask("tick", {count: 1});
$("scan").onclick = () => ask("scan", {program: now.view.program, steps: steps()});
$("back").onclick = () => ask("go", {to: now.at - 1});
$("back-scan").onclick = () => ask("back", {program: now.view.program});
$("last").onclick = () => ask("last");
$("restore").onclick = () => ask("restore");
$("scrub").onchange = () => ask("go", {to: Number($("scrub").value)});
$("take").onclick = () => ask("take");
$("again").onclick = () => ask("again");
$("end").onclick = () => {
  if ($("end").dataset.sure) return ask("end");
  $("end").dataset.sure = "yes";
  $("end").textContent = "End: sure?";
  setTimeout(() => { delete $("end").dataset.sure; $("end").textContent = "End"; }, 4000);
};
$("stop").onsubmit = (event) => {
  event.preventDefault();
  ask("stop", {kind: $("stop-kind").value, place: $("stop-place").value, value: Math.trunc(Number($("stop-value").value))});
};
$("until").onclick = () => ask("until", {steps: steps()});
$("check").onclick = async () => {
  const told = await ask("check");
  if (told.text) say([`./logix replay project.json journal.txt: ${told.text}`, ...explained(told)].join("\n"));
};
$("add").onsubmit = (event) => {
  event.preventDefault();
  ask("watch", {place: $("add-place").value, on: true});
  $("add-place").value = "";
};
$("span").onchange = async () => {
  whole.told = null;
  if ($("span").value === "all") {
    const told = await ask("whole");
    if (told.text) say(told.text);
    whole.told = told.points ? told : null;
  }
  drawTrend(now);
};
$("ladder").addEventListener("click", (event) => {
  const rung = event.target.closest(".rung");
  if (rung) { choose([...$("ladder").children].indexOf(rung)); enable(); }
});
$("ladder").addEventListener("dblclick", () => { if (!$("edit").disabled) $("edit").click(); });
$("ladder").addEventListener("focusin", (event) => {
  const at = [...$("ladder").children].indexOf(event.target);
  if (at >= 0) { choose(at); enable(); }
});
let resized = 0;
window.addEventListener("resize", () => {
  clearTimeout(resized);
  resized = setTimeout(() => { if (now) { redrawLadder(); drawTrend(now); drawMarks(now); } }, 100);
});

const KEYS = new Map(Object.entries({" ": "play", ".": "cpu", ",": "back", s: "scan", S: "back-scan", t: "one-tick", e: "edit", i: "insert", d: "delete", Delete: "delete"}));
document.addEventListener("keydown", (event) => {
  const inField = event.target.closest("input, select, textarea");
  if (event.key === "Escape" && editing) { closeEditor(); $("ladder").children[pick.at]?.focus(); }
  if (inField || event.ctrlKey || event.metaKey || event.altKey) return;
  if (event.key === " " && event.target.closest("button, a, summary")) return;
  if (event.key === "ArrowDown" || event.key === "ArrowUp") {
    if (!event.target.closest("#ladder")) return;
    choose(pick.at + (event.key === "ArrowDown" ? 1 : -1));
    $("ladder").children[pick.at].focus();
  } else if (KEYS.has(event.key)) {
    if (!$(KEYS.get(event.key)).disabled) $(KEYS.get(event.key)).click();
  } else return;
  event.preventDefault();
});

// For tests: what isn't answered yet, and what is shown.
window.online = {waiting: () => waiting, now: () => now, values: () => values, rows: () => allRows(now.view)};

fetch("layout").then((answer) => answer.json()).then((data) => {
  layout = data;
  $("controller").textContent = data.controller;
  $("unproved").hidden = data.proved;
  document.title = `${data.controller} online`;
  listen();
});
