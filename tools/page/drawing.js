// ---- The drawing of a heap's strings

const MOST_BOXES = 60, ALL = "all strings", NAMED = "that names hold";

/** The strings under what was picked: all, those under names with what the statement changed, or those under one name. */
function pickedIds(heap, {kind, under, chosen, names, changed}) {
  const named = [...names.keys()].filter(i => heap.isBorn(i)), news = [...changed.was.keys(), ...changed.made];
  const roots = under == ALL ? heap.born() : under == NAMED ? [...named, ...news] : named.filter(i => names.get(i).includes(under));
  const reached = heap.reached(chosen === null ? roots : [...roots, chosen]);
  return heap.born().filter(i => reached.has(i) && (!kind || heap.kind(i) == kind));
}
/** Which of them are drawn, with those that they stand on: the named and the newest first where they are too many. */
function drawnIds(heap, view) {
  const matching = new Set(pickedIds(heap, view)), found = new Set();
  const first = [view.chosen, ...view.names.keys(), ...[...matching].reverse()].filter(i => matching.has(i));
  for (const i of first) {
    if (found.size >= MOST_BOXES) break;
    const line = [i];
    while (line.length && found.size < MOST_BOXES) { const at = line.shift(); if (!found.has(at)) { found.add(at); line.push(...heap.below(at)); } }
  }
  return {ids: [...found].sort((a, b) => a - b), matching, all: matching.size};
}

const cut = (text, most) => text.length > most ? `${text.slice(0, most - 1)}…` : text;
/** A text in at most so many lines, each from a space on; the last is cut. */
function inLines(text, most, count) {
  const at = count > 1 && text.length > most ? text.lastIndexOf(" ", most) : -1;
  return at < 0 ? [cut(text, most)] : [text.slice(0, at), ...inLines(text.slice(at + 1), most, count - 1)];
}
function boxOf(heap, i, {x, y}, {w, h}, {names, changed, matching, chosen}) {
  const form = heap.form(i), length = heap.length(i), slot = heap.slotOf.get(i), own = names.get(i) || [];
  const was = changed.was.get(i), isNew = changed.made.includes(i), wide = Math.floor((w - 18) / 7.9);
  const kinds = [form.tag, form.fixed && "fixed", i == chosen && "chosen", was && "changed", isNew && "new", !matching.has(i) && "faint"].filter(Boolean).join(" ");
  const pill = 36 + 7 * String(slot).length, tag = slot === undefined ? "" : `<g class="tag"><rect x="${x + w - 7 - pill}" y="${y - 9}" width="${pill}" height="16" rx="8"/><text x="${x + w - 7 - pill / 2}" y="${y + 3}">slot ${slot}</text></g>`;
  const room = Math.floor((w - 64) / 7), all = own.join(", ");
  const detail = was ? `was ${was.tag}: ${spelled(form, length)}` : `${plural(length, "unit")}, ${spelled(form, length)}`;
  return `<g class="s ${kinds}" data-id="${i}" tabindex="${i == chosen ? 0 : -1}" role="button" aria-label="id ${i}${all ? ` of ${escaped(all)}` : ""}: ${escaped(heap.quoted(i, 30))}, ${spelled(form, length)}" style="--who:var(--${form.tag})">` +
    `<title>${escaped(`${all ? `${all}: ` : ""}id ${i}, ${plural(length, "unit")}, ${spelled(form, length)}`)}</title><rect class="box" x="${x}" y="${y}" width="${w}" height="${h}" rx="8"/>` +
    `<text class="name" x="${x + 9}" y="${y + 18}">id ${i}<tspan class="own" dx="7">${escaped(cut(all, Math.max(2, room)))}</tspan></text>${tag}` +
    `<text class="units" x="${x + 9}" y="${y + 36}">${escaped(heap.quoted(i, wide - 3))}</text>` +
    `${inLines(detail, Math.floor((w - 16) / (h > 70 ? 5.5 : 5.1)), h > 70 ? 2 : 1).map((line, k) => `<text class="small" x="${x + 9}" y="${y + 52 + 13 * k}">${line}</text>`).join("")}</g>`;
}

/** The sizes of boxes to try, the largest first. Where the room is narrow, a box is higher, and a row has only as many as there is room for. */
function sizesFor(room) {
  if (room >= 600) return [176, 152].map(w => ({w, h: 60, gapX: 14, gapY: 40}));
  const gapX = 12, most = Math.max(1, Math.floor((room + gapX) / 150));
  return [...Array(most).keys()].flatMap(k => [0, 14, 28, 42].map(less => ({most: most - k, w: Math.min(176, Math.floor((room + gapX) / (most - k)) - gapX) - less, h: 74, gapX, gapY: 40, way: gapX})));
}
/** Draws into a box of the page; answers how many strings are drawn of how many, and the drawing's rows for the keyboard. */
function drawHeap(box, heap, view) {
  const {ids, matching, all} = drawnIds(heap, view), room = box.clientWidth - 12;
  let size, placed;
  for (size of sizesFor(room)) { placed = layered(ids, i => heap.below(i), size, room); if (placed.width <= room) break; }
  const {at, routes, width, height} = placed;
  const arrows = routes.map(route => {
    const [d, head] = arrowPaths(route), tag = heap.form(route.from).tag;
    const lit = view.chosen === route.from || view.chosen === route.to ? " lit" : "";
    return `<g class="way ${tag}${lit}" data-way="${route.from}-${route.to}"><path class="arrow" d="${d}"/><path class="head" d="${head}"/></g>`;
  });
  const boxes = ids.map(i => boxOf(heap, i, at.get(i), size, {...view, matching}));
  const empty = ids.length ? "" : `<text class="small" x="6" y="24">No string is here.</text>`;
  box.innerHTML = `<svg${size.most ? ' class="fits"' : ""} width="${Math.max(width, 200) + 8}" height="${Math.max(height, 30) + 16}" viewBox="-4 -12 ${Math.max(width, 200) + 8} ${Math.max(height, 30) + 16}" role="group" aria-label="The strings of the heap">${arrows.join("")}${boxes.join("")}${empty}</svg>`;
  const first = box.querySelector("g.chosen") || box.querySelector("g.s");
  if (first) first.setAttribute("tabindex", 0);
  return {drawn: ids.length, all, at};
}

/** The box next to one in the direction of an arrow key: the nearest whose middle lies that way. */
function nextBox(at, from, key) {
  const here = at.get(from), [dx, dy] = {ArrowLeft: [-1, 0], ArrowRight: [1, 0], ArrowUp: [0, -1], ArrowDown: [0, 1]}[key];
  let best, least = Infinity;
  for (const [id, place] of at) {
    const ahead = (place.x - here.x) * dx + (place.y - here.y) * dy, aside = Math.abs((place.x - here.x) * dy) + Math.abs((place.y - here.y) * dx);
    if (ahead > 0 && ahead + 3 * aside < least) { least = ahead + 3 * aside; best = id; }
  }
  return best;
}

// ---- The words of one string

const binaryParts = form => [["tag", TAGS.indexOf(form.tag)], ["wide", Number(form.wide)], ["fixed", Number(form.fixed)], ["first", form.first], ["second", form.second]];
function lanesOf(word, window, at) {
  const per = window.wide ? 4 : 8;
  return `<span class="lanes">${[...Array(per).keys()].map(o => {
    const unit = lane(word, window.wide, o), k = at * per + o, isIn = k >= window.offset && k < window.offset + window.length;
    return `<span class="${isIn ? "in" : "out"}"><b>${isIn ? escaped(shownUnit(unit)) : unit ? escaped(shownUnit(unit)) : "·"}</b><i>${unit.toString(16).padStart(window.wide ? 4 : 2, "0")}</i></span>`;
  }).join("")}</span>`;
}
/** The words that say what a string is, and those of its units, lane by lane: the lanes of other strings are faint. */
function wordsOf(heap, i, names) {
  const form = heap.form(i), at = heap.formAt + 2 * i, length = heap.length(i), window = heap.window(i), rows = [], most = 12;
  const row = (place, what, word, meaning) => rows.push(`<tr><td class="n">${place}</td><td>${what}</td><td class="n"><code>${word}</code></td><td>${meaning}</td></tr>`);
  row(at, `form of id ${i}`, form.word, `${escaped(spelled(form, length))}<span class="fields">${binaryParts(form).map(([name, n]) => `${name} <code>${n}</code>`).join(" ")}</span>`);
  row(at + 1, `length of id ${i}`, length, plural(length, "unit"));
  if (heap.slotOf.has(i)) { const {hash, slot} = heap.hash(i); row(2 + heap.slotOf.get(i), `slot ${heap.slotOf.get(i)}`, i + 1, `id ${i}; its hash ${hash} begins at slot ${slot}`); }
  if (window) {
    const per = window.wide ? 4 : 8, first = Math.floor(window.offset / per), end = Math.ceil((window.offset + window.length) / per);
    for (let w = first; w < Math.min(end, first + most); w++) { const c = window.start + w, word = heap.words[heap.contentAt + c]; row(heap.contentAt + c, `content ${c}`, word, lanesOf(word, window, w)); }
    if (end - first > most) rows.push(`<tr><td></td><td colspan="3" class="soft">and ${counted(end - first - most)} more content words</td></tr>`);
  } else if (form.tag == "cons") rows.push(`<tr><td></td><td colspan="3" class="soft">A cons has no units of its own: they are those of id ${form.first}, then those of id ${form.second}.</td></tr>`);
  const own = names.get(i), whole = heap.quoted(i, 400);
  return `<p class="whole"><b>id ${i}</b>${own ? ` <span class="own">${escaped(own.join(", "))}</span>` : ""} <code>${escaped(whole)}</code></p><div class="wide"><table class="words"><tr><th class="n">place</th><th></th><th class="n">word</th><th>what it says</th></tr>${rows.join("")}</table></div>`;
}
