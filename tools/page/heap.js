// ---- The words of a heap, read as docs/HEAP.md has them

const TAGS = ["unborn", "flat", "cons", "sliced", "thin"], FIELD = (1n << 29n) - 1n, FRONT = 50;
const escaped = text => String(text).replace(/[&<>"]/g, c => ({"&": "&amp;", "<": "&lt;", ">": "&gt;", '"': "&quot;"})[c]);
const counted = n => n.toLocaleString("en");
const plural = (n, name) => `${counted(n)} ${name}${n == 1 ? "" : "s"}`;

function decoded(word) {
  const field = at => Number(word >> at & FIELD);
  return {tag: TAGS[Number(word & 7n)], wide: (word >> 3n & 1n) == 1n, fixed: (word >> 4n & 1n) == 1n, first: field(5n), second: field(34n), word};
}
const lanesIn = form => form.wide ? 4 : 8;
function lane(word, isWide, o) { const bits = isWide ? 16n : 8n; return Number(word >> bits * BigInt(o) & (1n << bits) - 1n); }

class Heap {
  constructor(words, sizes) {
    this.words = words; this.sizes = sizes;
    this.used = Number(words[0]); this.content = Number(words[1]);
    this.formAt = 2 + sizes.slots; this.contentAt = this.formAt + 2 * sizes.ids;
    this.slotOf = new Map(); this.fronts = new Map();
    for (let k = 0; k < sizes.slots; k++) if (words[2 + k]) this.slotOf.set(Number(words[2 + k]) - 1, k);
  }
  form(i) { return decoded(this.words[this.formAt + 2 * i]); }
  length(i) { return Number(this.words[this.formAt + 2 * i + 1]); }
  isBorn(i) { return i < this.used && this.words[this.formAt + 2 * i] != 0n; }
  born() { return [...Array(this.used).keys()].filter(i => this.isBorn(i)); }
  below(i) {
    const form = this.form(i);
    return {cons: [form.first, form.second], sliced: [form.first], thin: [form.first]}[form.tag] || [];
  }
  kind(i) {
    const form = this.form(i);
    return form.tag != "flat" ? form.tag : form.fixed ? "fixed flat" : form.wide ? "two-byte flat" : "flat";
  }
  /** The ids that these stand on, themselves among them. */
  reached(ids) {
    const found = new Set(), rest = [...ids];
    while (rest.length) { const i = rest.pop(); if (!found.has(i)) { found.add(i); rest.push(...this.below(i)); } }
    return found;
  }
  /** Where all units of a string lie in content words: nothing for a cons. */
  window(i) {
    let form = this.form(i), offset = 0;
    if (form.tag == "sliced") { offset = form.second; form = this.form(form.first); }
    if (form.tag == "thin") form = this.form(form.first);
    return form.tag == "flat" ? {start: form.first, wide: form.wide, offset, length: this.length(i)} : null;
  }
  /** The first units of a string, at most so many. What is left to read is a list, so that no rope is too deep. */
  units(i, most) {
    const found = [], rest = [[i, 0, Math.min(most, this.length(i))]];
    while (rest.length) {
      const [id, from, count] = rest.pop(), form = this.form(id);
      if (count <= 0) continue;
      if (form.tag == "cons") {
        const left = this.length(form.first), ofLeft = Math.max(0, Math.min(count, left - from));
        rest.push([form.second, Math.max(0, from - left), count - ofLeft], [form.first, from, ofLeft]);
      } else {
        const {start, wide, offset} = this.window(id), per = wide ? 4 : 8;
        for (let o = offset + from; o < offset + from + count; o++) found.push(lane(this.words[this.contentAt + start + Math.floor(o / per)], wide, o % per));
      }
    }
    return found;
  }
  /** The hash of the units of a string, and the slot with which its path begins. */
  hash(i) {
    const hash = this.units(i, Infinity).reduce((sum, unit) => Math.imul(sum, 31) + unit >>> 0, 0);
    return {hash, slot: hash % this.sizes.slots};
  }
  /** The first units of a string, kept for the strings over it, so that a long chain is read once. */
  front(i) {
    const rest = [i], {fronts} = this;
    while (rest.length) {
      const at = rest.at(-1), form = this.form(at), sides = form.tag == "cons" ? [form.first, form.second] : [], missing = sides.filter(it => !fronts.has(it));
      if (missing.length && !fronts.has(at)) { rest.push(...missing); continue; }
      if (!fronts.has(at)) fronts.set(at, sides.length ? [...fronts.get(sides[0]), ...fronts.get(sides[1])].slice(0, FRONT) : this.units(at, FRONT));
      rest.pop();
    }
    return fronts.get(i);
  }
  quoted(i, most) {
    const all = (most < FRONT ? this.front(i).slice(0, most + 1) : this.units(i, most + 1)).map(shownUnit);
    while (all.join("").length > most) all.pop();
    return `“${all.join("")}${all.length < this.length(i) ? "…" : ""}”`;
  }
}

function shownUnit(u) {
  if (u == 10) return "⏎";
  return u >= 32 && u < 127 || u > 160 && (u < 0xD800 || u > 0xDFFF) ? String.fromCharCode(u) : "\\u" + u.toString(16).padStart(4, "0");
}
function spelled(form, length) {
  const count = Math.ceil(length / lanesIn(form)), wide = form.wide ? ", two-byte" : "";
  const place = count == 0 ? "no words" : count == 1 ? `word ${form.first}` : `words ${form.first}–${form.first + count - 1}`;
  return {
    flat: `${form.fixed ? "fixed flat" : "flat"}${wide}, ${place}`,
    cons: `cons of ${form.first} and ${form.second}`,
    sliced: `slice of ${form.first} from ${form.second}`,
    thin: `thin to ${form.first}`,
  }[form.tag] || "not born";
}

/** What a step changed: the ids that are new, and the forms that others had before it. */
function changes(before, after) {
  const was = new Map(), made = [];
  for (let i = 0; i < after.used; i++) {
    if (!before || !before.isBorn(i)) { if (after.isBorn(i)) made.push(i); continue; }
    const form = before.form(i);
    if (form.word != after.form(i).word) was.set(i, form);
  }
  return {made, was};
}
function runsOf(numbers) {
  const found = [];
  for (const n of numbers) { const last = found.at(-1); if (last && last[1] == n - 1) last[1] = n; else found.push([n, n]); }
  return found.map(([a, b]) => a == b ? a : `${a}–${b}`).join(", ");
}
