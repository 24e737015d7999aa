// ---- The page

const $ = id => document.getElementById(id);
const dataOf = id => { try { return JSON.parse($(id).textContent); } catch (unfilled) { return null; } };
const SAMPLES = dataOf("samples-data") || {}, HINTS = dataOf("hints-data") || [], BUILT = dataOf("built-data") || {};
const SIZES = ["ids", "words", "slots"], DEFAULT = {ids: 16384, words: 65536, slots: 2048}, MOST_WORDS = 1 << 24;
// The examples of this page, in their order; the others are the program's demos. OWN is a text that was written here, and kept under this name.
const FORMS = ["forms", "flat", "cons", "sliced", "thin", "objects", "full", "fault"], OWN = "your own";

// What was run last, its answers by the number of statements, and what is looked at.
let run = null, view = {kind: null, under: NAMED, chosen: null, names: new Map(), changed: {made: [], was: new Map()}}, shown = null;

// ---- The engine, in a worker: one job at a time, of those that wait the last alone
let worker = null, asked = 0, waiting = null, busy = null, wasmBytes = null;
function startWorker() {
  const text = `"use strict";\n${$("engine-text").textContent}\n${$("worker-text").textContent}`, address = URL.createObjectURL(new Blob([text], {type: "text/javascript"}));
  worker = new Worker(address);
  URL.revokeObjectURL(address);
  wasmBytes ||= Uint8Array.from(atob($("wasm").textContent.trim()), c => c.charCodeAt(0));
  worker.onmessage = ({data}) => { if (!busy || data.ask != busy.ask) return; const {done} = busy; busy = null; showBusy(); done(data); if (!busy && waiting) send(waiting); };
  worker.onerror = event => { event.preventDefault(); const it = busy; busy = null; stopWorker(); if (it) it.done({fault: event.message || "the worker stopped"}); };
  worker.postMessage({wasm: wasmBytes});
}
function stopWorker() { if (worker) worker.terminate(); worker = null; busy = null; showBusy(); }
function send({job, done}) {
  waiting = null;
  if (!worker) startWorker();
  busy = {ask: ++asked, done};
  worker.postMessage({ask: asked, job});
  setTimeout(showBusy, 250, asked);
}
const ask = (job, done) => { if (busy) waiting = {job, done}; else send({job, done}); };
function showBusy(ask) { $("stop").hidden = !busy || ask !== busy.ask; if (!$("stop").hidden && !shown) clearHeap(); }
function stop() {
  waiting = null; stopWorker();
  if (!shown) clearRun();
  showEnd("<b>Stopped.</b> The engine starts anew at the next run.", true);
}

// ---- Runs
// Takes away what the run before has shown.
function clearRun() { shown = null; $("lines").textContent = $("took").textContent = $("changed").textContent = ""; $("steps").hidden = true; clearHeap(); }
function sizesAsked() {
  const sizes = Object.fromEntries(SIZES.map(name => [name, Number($(name).value)]));
  for (const name of SIZES) if (!Number.isInteger(sizes[name]) || sizes[name] < 1 || sizes[name] >= 2 ** 29) return {fault: `${name}: a whole number from 1 to 536,870,911.`};
  if (2 + sizes.slots + 2 * sizes.ids + sizes.words > MOST_WORDS) return {fault: `This page draws heaps of at most ${counted(MOST_WORDS)} words, where each id takes two.`};
  return {sizes};
}
function start() {
  const {sizes, fault} = sizesAsked(), text = $("text").value;
  SIZES.forEach(name => $(name).removeAttribute("aria-invalid"));
  if (fault) { SIZES.filter(name => fault.startsWith(name)).forEach(name => $(name).setAttribute("aria-invalid", "true")); run = null; clearRun(); showEnd(`<b>No heap has these sizes.</b> ${escaped(fault)}`, true); return; }
  run = {text, bytes: new TextEncoder().encode(text), sizes, told: new Map(), count: null, last: null, isFound: false, at: null, statements: []};
  view = {...view, kind: null, under: NAMED, chosen: null};
  // (the heap of a short run stays until the next one is there, so that the page doesn't jump)
  shown = null; $("lines").textContent = $("took").textContent = $("changed").textContent = ""; showEnd("Running …");
  step(null);
}
// Finds the statement in which a run ended, the least number of statements with that end, and goes on with it.
function findLast(of, told, low, high, then) {
  if (low >= high) { then(high); return; }
  const middle = low + high >> 1;
  ask({...of.sizes, script: of.text, statements: middle}, ({told: it}) => {
    if (of !== run) return;
    if (!it) then(of.count); else if (it.status == told.status) findLast(of, told, low, middle, then); else findLast(of, told, middle + 1, high, then);
  });
}
const ENDED_EARLY = [1, 2, 3, 4, 5], QUICK = 300;
// Runs so many statements, or all, and shows what they leave.
function step(k) {
  const of = run, known = of.told.get(k === null ? of.last : k);
  if (known) { show(of, known); return; }
  ask({...of.sizes, script: of.text, ...k === null ? {} : {statements: k}}, ({told, fault}) => {
    if (of !== run) return;
    if (fault) { clearRun(); showEnd(`<b>The engine stopped</b> (${escaped(fault)}), and starts anew at the next run.`, true); return; }
    if (k === null) { of.count = told.statements; of.statements = statementsOf(of.text.length < 200000 ? of.text : ""); }
    if (k === null && ENDED_EARLY.includes(told.status) && told.ms < QUICK) findLast(of, told, 0, of.count, last => { of.isFound = true; keep(of, told, last); }); else keep(of, told, k === null ? told.statements : k);
  });
}
function keep(of, told, k) {
  of.last ??= k;
  told.k = k;
  told.heap = told.words ? new Heap(told.words, of.sizes) : null;
  if (of.told.size > 40) of.told.clear();
  of.told.set(told.k, told);
  show(of, told);
}
// The changes of a step are shown once the heap before it is there.
function compare(of, told) {
  const before = of.told.get(told.k - 1);
  if (!told.heap || told.k == 0) return told.heap && told.k == 0 ? changes(null, told.heap) : null;
  if (before) return before.heap ? changes(before.heap, told.heap) : null;
  ask({...of.sizes, script: of.text, statements: told.k - 1}, ({told: earlier}) => {
    if (of !== run || !earlier) return;
    of.told.set(earlier.k = told.k - 1, Object.assign(earlier, {heap: earlier.words ? new Heap(earlier.words, of.sizes) : null}));
    if (shown === told) show(of, told);
  });
  return null;
}
function show(of, told) {
  shown = told; of.at = told.k;
  const {html, place} = endBox(told, of.bytes, HINTS, of.isFound && told.k == of.last ? statementAt(of, told.k) : null);
  showEnd(told.k < of.count && told.status == 0 ? `<b>So far</b>, after ${plural(told.k, "statement")} of ${of.count}.` : html, told.status > 0, place);
  $("lines").textContent = new TextDecoder().decode(told.printed) + (told.length > told.printed.length ? `\n… ${counted(told.length)} bytes in all` : "");
  $("took").textContent = `${told.ms.toFixed(1)} ms`;
  showSlider(of, told);
  view.names = new Map();
  for (const {name, ids} of told.names) for (const i of ids) view.names.set(i, [...new Set([...view.names.get(i) || [], name])]);
  const found = compare(of, told);
  view.changed = found || {made: [], was: new Map()};
  showChanges(of, told, found);
  if (!told.heap) { clearHeap(); return; }
  if (view.chosen !== null && !told.heap.isBorn(view.chosen)) view.chosen = null;
  showHeap();
}
function showEnd(html, isBad, place) {
  $("end").className = isBad ? "bad" : ""; $("end").innerHTML = html;
  markEditor(place);
}
function showSlider(of, told) {
  $("steps").hidden = !of.count;
  $("slider").max = of.last; $("slider").value = told.k;
  $("count").textContent = `${told.k} of ${plural(of.count, "statement")}`;
  $("slider").setAttribute("aria-valuetext", $("count").textContent);
  $("back").disabled = told.k <= 0; $("next").disabled = told.k >= of.last;
}
const statementAt = (of, k) => of.statements.length == of.count && k ? of.statements[k - 1] : null;
function showChanges(of, told, found) {
  const at = statementAt(of, told.k), parts = [];
  const text = at ? of.text.slice(...at).replace(/\s+/g, " ") : "", what = told.k == 0 ? "Before the first statement: the literals." : `<code>${escaped(text.length > 90 ? `${text.slice(0, 90)}…` : text)}</code>`;
  if (found && found.made.length) parts.push(`made ${found.made.length > 40 ? plural(found.made.length, "string") : `${found.made.length == 1 ? "id" : "ids"} ${runsOf(found.made)}`}`);
  if (found) for (const [i, form] of [...found.was].slice(0, 6)) parts.push(`<button class="plain" data-id="${i}">id ${i}</button>: ${form.tag} → ${told.heap.kind(i)}${told.heap.form(i).tag == "thin" ? ` to ${told.heap.form(i).first}` : ""}`);
  if (found && found.was.size > 6) parts.push(`${found.was.size - 6} more forms changed`);
  $("changed").innerHTML = of.count ? `${what} ${found ? parts.join("; ") || "no string was made and no form changed" : ""}` : "";
}

// ---- The editor: line numbers, and behind the text the statement that ran and the fault
function markEditor(place) {
  const text = $("text").value, count = text.split("\n").length;
  $("gutter").textContent = count > 20000 ? "" : [...Array(count).keys()].map(k => k + 1).join("\n");
  const range = place ? [place.index, Math.min(text.length, place.end || place.index + 1)] : run && run.text == text && run.at !== null && run.at < run.count ? statementAt(run, run.at) : null;
  const isShort = text.length < 200000 && range;
  $("under").innerHTML = isShort ? `${escaped(text.slice(0, range[0]))}<mark class="${place ? "fault" : "now"}">${escaped(text.slice(...range)).replace(/^\n?$/, " $&")}</mark>${escaped(text.slice(range[1]))}\n` : "";
  const mark = isShort && $("under").querySelector("mark");
  if (mark && document.activeElement != $("text")) { const top = mark.offsetTop, box = $("text"); if (top < box.scrollTop || top > box.scrollTop + box.clientHeight - 40) box.scrollTop = Math.max(0, top - 80); }
  scrollEditor();
}
// Keeps a text that is no example, so that it is there after a reload; a page from a file may have no such place.
function keepOwn() {
  const text = $("text").value;
  if (text == SAMPLES[$("samples").value]) return;
  $("samples").value = OWN;
  try { localStorage.setItem("jsstr", JSON.stringify({text, sizes: SIZES.map(name => $(name).value)})); } catch (refused) { /* it is lost */ }
}
const keptOwn = () => { try { return JSON.parse(localStorage.getItem("jsstr")); } catch (refused) { return null; } };
function loadOwn() {
  const {text, sizes} = keptOwn() || {text: "", sizes: SIZES.map(name => DEFAULT[name])};
  $("samples").value = OWN; $("text").value = text;
  SIZES.forEach((name, k) => { $(name).value = sizes[k]; });
  start();
}
function scrollEditor() { const box = $("text"); $("under").scrollTop = $("gutter").scrollTop = box.scrollTop; $("under").scrollLeft = box.scrollLeft; }
function load(name) {
  if (name == OWN) { loadOwn(); return; }
  $("samples").value = name; $("text").value = SAMPLES[name];
  const sizes = SAMPLES[name].match(/\/\/ A heap of (\d+) ids, (\d+) words and (\d+) slots/);
  SIZES.forEach((it, k) => { $(it).value = sizes ? sizes[k + 1] : DEFAULT[it]; });
  $("text").scrollTop = 0;
  start();
}

// ---- The heap
let places = new Map();
function clearHeap() { for (const id of ["meters", "kinds", "drawing", "table", "chosen", "list"]) $(id).innerHTML = ""; $("drawn").textContent = "Strings"; places = new Map(); $("heap-side").className = "side none"; }
function showHeap() {
  $("heap-side").className = "side";
  const {heap} = shown, counts = new Map(), names = [...new Set([...view.names.values()].flat())].sort();
  for (const i of heap.born()) counts.set(heap.kind(i), (counts.get(heap.kind(i)) || 0) + 1);
  if (view.kind && !counts.has(view.kind)) view.kind = null;
  if (view.under != ALL && !names.includes(view.under)) view.under = names.length ? NAMED : ALL;
  $("meters").innerHTML = [["ids", heap.used, heap.sizes.ids], ["content words", heap.content, heap.sizes.words], ["slots", heap.slotOf.size, heap.sizes.slots]].map(([name, n, of]) =>
    `<div class="meter${n == of ? " full" : ""}"><b>${counted(n)}</b> of ${counted(of)} ${name}<div><i style="width:${Math.max(n ? 1 : 0, 100 * n / of)}%"></i></div></div>`).join("");
  $("kinds").innerHTML = [...counts].map(([kind, n]) => `<button data-kind="${kind}" aria-pressed="${view.kind == kind}">${counted(n)} ${kind}</button>`).join("") +
    `<label>strings<select id="names">${[NAMED, ALL, ...names].map(it => `<option${it == view.under ? " selected" : ""}>${escaped(it)}</option>`).join("")}</select></label>`;
  showDrawing(); showList(); showTable(); showChosen();
}
function showDrawing() {
  const {drawn, all, at} = drawHeap($("drawing"), shown.heap, view);
  places = at;
  seeBoxes($("drawing"));
  const whose = view.under == ALL ? "" : view.under == NAMED ? ` ${NAMED}` : ` under ${view.under}`;
  $("drawn").textContent = `Strings: ${drawn < all ? `${drawn} of ` : ""}${counted(all)}${view.kind ? ` ${view.kind}` : ""}${whose}`;
}
// Scrolls to the first box where none is seen, as in the drawing of a long rope.
function seeBoxes(box) {
  const {left, top} = box.getBoundingClientRect(), boxes = [...box.querySelectorAll("g.s rect.box")].map(it => it.getBoundingClientRect());
  if (!boxes.length || boxes.some(it => it.left < left + box.clientWidth && it.right > left && it.top < top + box.clientHeight && it.bottom > top)) return;
  box.scrollTop += boxes[0].top - top - 24; box.scrollLeft += boxes[0].left - left - 12;
}
function showChosen() { $("chosen").innerHTML = view.chosen === null ? `<p class="soft">Choose a string: click on its box, or go there by the arrow keys.</p>` : wordsOf(shown.heap, view.chosen, view.names); }
function showList() {
  const {heap} = shown, ids = pickedIds(heap, {...view, chosen: null}).reverse(), most = 200;
  const row = i => `<tr data-id="${i}" class="${i == view.chosen ? "chosen" : ""}"><td class="n"><button class="plain">${i}</button></td><td>${escaped(spelled(heap.form(i), heap.length(i)))}</td><td class="n">${counted(heap.length(i))}</td><td class="u"><span class="own">${escaped((view.names.get(i) || []).join(", "))}</span> ${escaped(heap.quoted(i, 44))}</td></tr>`;
  $("listed").textContent = `All of these in a list${ids.length > most ? `, the last ${most} of ${counted(ids.length)}` : ""}`;
  $("list").innerHTML = `<table><tr><th class="n">id</th><th>form</th><th class="n">units</th><th></th></tr>${ids.slice(0, most).map(row).join("")}</table>`;
}
function showTable() {
  const {heap} = shown, rows = [...heap.slotOf].sort((a, b) => a[1] - b[1]), most = 40;
  $("table").innerHTML = rows.length ? `<div class="slots">${rows.slice(0, most).map(([i, k]) => `<button data-id="${i}" class="${i == view.chosen ? "chosen" : ""}"><span class="soft">slot ${k}</span> id ${i} <code>${escaped(heap.quoted(i, 14))}</code></button>`).join("")}</div>${rows.length > most ? `<p class="soft">and ${counted(rows.length - most)} more</p>` : ""}` : `<p class="soft">No slot is used.</p>`;
}
function choose(i, focus) {
  if (!shown || !shown.heap || !shown.heap.isBorn(i)) return;
  view.chosen = i;
  const box = $("drawing"), {scrollTop, scrollLeft} = box;
  showDrawing(); showTable(); showChosen(); box.scrollTop = scrollTop; box.scrollLeft = scrollLeft;
  for (const it of $("list").querySelectorAll("tr[data-id]")) it.className = Number(it.dataset.id) == i ? "chosen" : "";
  const it = box.querySelector("g.chosen");
  if (it) { if (focus) it.focus({preventScroll: true}); it.scrollIntoView({block: "nearest", inline: "nearest"}); }
}

// ---- Events
const clicked = event => { const it = event.target.closest("[data-id]"); if (it) choose(Number(it.dataset.id)); };
for (const id of ["drawing", "list", "table", "changed"]) $(id).addEventListener("click", clicked);
$("drawing").addEventListener("keydown", event => {
  const it = event.target.closest("[data-id]");
  if (!it) return;
  if (event.key.startsWith("Arrow")) { event.preventDefault(); const to = nextBox(places, Number(it.dataset.id), event.key); if (to !== undefined) choose(to, true); }
  if (event.key == "Enter" || event.key == " ") { event.preventDefault(); choose(Number(it.dataset.id), true); }
});
$("kinds").addEventListener("click", event => { const it = event.target.closest("[data-kind]"); if (it) { const kind = it.dataset.kind; view.kind = view.kind == kind ? null : kind; showHeap(); $("kinds").querySelector(`[data-kind="${kind}"]`).focus(); } });
$("kinds").addEventListener("change", event => { if (event.target.id == "names") { view.under = event.target.value; showHeap(); $("names").focus(); } });
$("run").addEventListener("click", start);
$("stop").addEventListener("click", stop);
for (const id of ["text", ...SIZES]) $(id).addEventListener("keydown", event => { if (event.key == "Enter" && (event.ctrlKey || event.metaKey || id != "text")) { event.preventDefault(); start(); } });
$("text").addEventListener("input", () => { keepOwn(); markEditor(); });
for (const id of SIZES) $(id).addEventListener("input", keepOwn);
$("text").addEventListener("scroll", scrollEditor);
$("samples").addEventListener("change", () => { load($("samples").value); try { history.replaceState(null, "", `#${$("samples").value}`); } catch (refused) { /* a page from a file may have no address of its own */ } });
$("slider").addEventListener("input", () => step(Number($("slider").value)));
for (const [id, by] of [["back", -1], ["next", 1]]) $(id).addEventListener("click", () => { if (run && run.count) step(Math.max(0, Math.min(run.last, run.at + by))); });
addEventListener("resize", () => { if (shown && shown.heap) showDrawing(); });
addEventListener("hashchange", () => { const name = decodeURIComponent(location.hash.slice(1)); if (SAMPLES[name] || name == OWN) load(name); });

const own = FORMS.filter(it => SAMPLES[it]), options = names => names.map(it => `<option>${escaped(it)}</option>`).join("");
$("samples").innerHTML = `<optgroup label="The heap">${options(own)}</optgroup><optgroup label="Demos">${options(Object.keys(SAMPLES).filter(it => !own.includes(it)))}</optgroup><optgroup label="Here">${options([OWN])}</optgroup>`;
$("built").textContent = Object.entries(BUILT).map(([name, value]) => `${name}: ${value}`).join(" · ");
const wanted = decodeURIComponent(location.hash.slice(1)), has64 = (() => { try { return new WebAssembly.Memory({address: "i64", initial: 1n}) && true; } catch (unknown) { return false; } })();
if (!has64) showEnd("<b>This browser can't run the page</b>: it has no WebAssembly with a 64-bit memory. Chromium 133 and Firefox 134 and later have it.", true);
else if (Object.keys(SAMPLES).length) load(SAMPLES[wanted] ? wanted : keptOwn() ? OWN : own[0] || Object.keys(SAMPLES)[0]);
