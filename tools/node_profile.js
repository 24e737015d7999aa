// Run by node: scripts of the profile, each rewritten so that its operators, indexes and calls are calls of `Proxy`, a name that no script can
// use. Each such function asks first whether the profile leaves the standard out there, and else lets node do it; and it adds up what the
// operation needs of a heap, by the table of docs/USAGE.md. Reads and writes JSON (tools/node_answers.py).
'use strict';
const vm = require('vm');
const { scripts, preludes, takes, leftOut, inherited, kept } = JSON.parse(require('fs').readFileSync(0, 'utf8'));
const numeric = Object.fromEntries(Object.entries(takes).map(([name, kinds]) => [name, [...kinds].map((it) => 'ns'.includes(it))]));

class Unsupported extends Error { constructor(at) { super(); this.name = `unsupported at ${at}`; } }
const isList = Array.isArray, isNothing = (v) => v === undefined || v === null, isText = (v) => typeof v === 'string';
const isObject = (v) => typeof v === 'object' && v !== null && !isList(v);
const ownText = (v) => isObject(v) && Object.hasOwn(v, 'toString');
// what becomes a string before it becomes a number; an object whose own toString is no function is a TypeError before that
const isLeftOut = (v) => isText(v) || isList(v) || isObject(v) && !ownText(v);
// a value that ends the script once it is made a number
const asNumber = (at, v) => isLeftOut(v) ? { [Symbol.toPrimitive]() { throw new Unsupported(at); } } : v;
const lawful = (at, v) => { if (typeof v === 'number' && Math.abs(v) > Number.MAX_SAFE_INTEGER && Number.isFinite(v)) throw new Unsupported(at); return v; };

// What was printed, the ids and words that are needed, and the strings that are interned.
let lines, ids, words, interned;
const needs = (i, w) => { ids += i; words += w; };
// the last row of the table, of p parts and t units
const needsOf = (p, t) => { const parts = Math.max(p, 1); needs(4 * parts + 4, 2 * t + 8 * parts + 16); };
const sum = (list) => list.reduce((total, it) => total + it.length, 0);
const units = (v) => isText(v) ? v.length : isList(v) ? sum(v) : 0;
// a value as a string, as the standard has it
const text = (v) => {
  if (isText(v)) return v;
  if (typeof v === 'symbol') throw new TypeError();
  const made = String(v);
  if (isList(v)) needsOf(v.length, sum(v) + made.length); else needs(8, 2 * made.length + 24);
  return made;
};
// what an argument counts: a string its units, an array those of the string that it became
const counted = (v, made) => isText(v) || isList(v) ? made.length : 0;

// a member by its key: what every object has of the standard's own is left out
const member = (at, v, key) => {
  interned.add(key);
  if (!Object.hasOwn(v, key) && inherited.includes(key)) throw new Unsupported(at);
  needsOf(1, 2 * key.length);
  return Object.hasOwn(v, key) ? v[key] : undefined;
};
// how deep an object nests, itself counted, its members and the elements of its arrays at all levels, and the units of all its strings; no object
// changes once it is made
const sizes = new WeakMap();
const sized = (o) => {
  const values = Object.values(o), below = values.filter(isObject).map((it) => sizes.get(it));
  const total = (name) => below.reduce((all, it) => all + it[name], 0);
  const size = { deep: 1 + Math.max(0, ...below.map((it) => it.deep)), many: values.length + total('many'),
    parts: values.length + sum(values.filter(isList)) + total('parts'), units: sum(Object.keys(o)) + values.reduce((all, it) => all + units(it), 0) + total('units') };
  sizes.set(o, size);
  return size;
};

// What a call of a method needs beside the conversions of its arguments: of its string or array, the arguments as they were and as strings, and
// the result.
const needsOfCall = {
  concat: (s, given) => given.forEach(() => needs(8, 24)),
  repeat: (s) => needs(96, 2 * s.length + 512),
  padStart: (s, given, made) => needs(128, 2 * (s.length + (made[1] ?? ' ').length) + 1024),
  padEnd: (s, given, made) => needs(128, 2 * (s.length + (made[1] ?? ' ').length) + 1024),
  split: (s, given, made, result) => needsOf(result.length, s.length + (made[0] ?? '').length + sum(result)),
  replace: (s, given, made, result) => needsOf(1, s.length + made[0].length + made[1].length + result.length),
  replaceAll: (s, given, made, result) => needsOf(s.split(made[0]).length + (made[0] === '' ? 1 : -1), s.length + made[0].length + made[1].length + result.length),
  join: (v, given, made, result) => needsOf(v.length, sum(v) + (made[0] ?? ',').length + result.length),
};
// Where undefined as an argument stands for another string, or for none.
const hasDefault = { padStart: 1, padEnd: 1, split: 0, join: 0 };
const called = (at, v, method, args) => {
  const kinds = takes[method], made = [], given = method === 'concat' ? args : args.slice(0, kinds.length);
  while (method !== 'concat' && given.length < kinds.length) given.push(undefined);
  const result = v[method](...given.map((it, place) => {
    if (numeric[method][place]) return asNumber(at, it);
    if (it === undefined && hasDefault[method] === place || typeof it === 'symbol') return it;
    return { toString() { return made[place] = text(it); } };
  }));
  const told = needsOfCall[method];
  if (told) told(v, given, made, result); else needsOf(1, v.length + made.reduce((all, it, place) => all + counted(given[place], it), 0) + units(result));
  return result;
};

const order = { '<': (a, b) => a < b, '>': (a, b) => a > b, '<=': (a, b) => a <= b, '>=': (a, b) => a >= b };
const plain = (v) => isList(v) || isObject(v) ? text(v) : v;
const ofStrings = (a, b) => { if (isText(a) && isText(b)) needsOf(1, a.length + b.length); };
const uri = (function_, v) => {
  const given = text(v), result = function_(given);
  needsOf(1, counted(v, given) + result.length);
  return result;
};
const profile = {
  literals(...list) { list.forEach((it) => { needs(8, 2 * it.length + 24); interned.add(it); }); },
  binary(op, at, a, b) {
    if (op === '+') {
      [a, b] = [plain(a), plain(b)];
      if (!isText(a) && !isText(b)) return lawful(at, a + b);
      const joined = text(a) + text(b);
      needs(8, 24);
      return joined;
    }
    if (op === '===' || op === '!==') {
      if (isList(a) && isList(b) || isObject(a) && isObject(b)) throw new Unsupported(at);
      ofStrings(a, b);
      return (a === b) === (op === '===');
    }
    if (typeof a === 'symbol' || typeof b === 'symbol') throw new TypeError();
    if (op === '-') {
      if (ownText(a) || ownText(b)) throw new TypeError();
      if (isLeftOut(a) || isLeftOut(b)) throw new Unsupported(at);
      return lawful(at, a - b);
    }
    [a, b] = [plain(a), plain(b)];
    if (isText(a) !== isText(b)) throw new Unsupported(at);
    ofStrings(a, b);
    return order[op](a, b);
  },
  minus(at, a) { if (isLeftOut(a)) throw new Unsupported(at); return -a; },
  index(at, v, i) {
    if (isNothing(v)) throw new TypeError();
    if (isObject(v) && typeof i !== 'symbol') return member(at, v, text(i));
    if (!isObject(v) && typeof i !== 'number') throw new Unsupported(at);
    const result = isObject(v) ? undefined : v[i];
    needsOf(1, units(result) + (isText(v) ? v.length : 0));
    return result;
  },
  member(at, v, key) {
    if (isNothing(v)) throw new TypeError();
    if (isObject(v)) return member(at, v, key);
    if (key !== 'length' && key !== 'description') throw new Unsupported(at);
    return v[key];
  },
  key(spelled) { interned.add(String(spelled)); return spelled; },
  object(at, keys, o) {
    const { deep, many } = sized(o);
    if (deep > 200 || many > 65536) throw new Unsupported(at);
    needsOf(keys.length, sum(keys.map(String)));
    return o;
  },
  keys(at, v) {
    if (isNothing(v)) throw new TypeError();
    if (!isObject(v)) throw new Unsupported(at);
    const keys = Object.keys(v);
    needsOf(1, sum(keys));
    return keys;
  },
  call(at, v, method, list) {
    if (isNothing(v)) throw new TypeError();
    const args = list();
    if (isList(v) && leftOut.includes(method)) throw new Unsupported(at);
    if (method === 'join' ? !isList(v) : !isText(v)) throw new TypeError();
    return called(at, v, method, args);
  },
  codes(at, which, args) {
    const result = String[which](...args.map((it) => asNumber(at, it)));
    needsOf(args.length, result.length);
    return result;
  },
  text(...args) {
    const made = args.length === 0 ? '' : typeof args[0] === 'symbol' ? String(args[0]) : text(args[0]);
    needsOf(1, counted(args[0], made) + made.length);
    return made;
  },
  symbol(v) {
    const key = text(v);
    interned.add(key);
    needsOf(1, counted(v, key));
    return Symbol.for(key);
  },
  keyFor(v) {
    const key = Symbol.keyFor(v);
    needsOf(1, key.length);
    return key;
  },
  json(v) {
    const result = JSON.stringify(v), { parts, units: all } = isObject(v) ? sizes.get(v) : { parts: isList(v) ? v.length : 1, units: units(v) };
    needsOf(parts, all + units(result));
    return result;
  },
  encodeURI: (v) => uri(encodeURI, v),
  encodeURIComponent: (v) => uri(encodeURIComponent, v),
  decodeURI: (v) => uri(decodeURI, v),
  decodeURIComponent: (v) => uri(decodeURIComponent, v),
  print(...args) {
    const parts = args.map(text);
    needsOf(args.length, sum(parts));
    lines += parts.map((it) => it.toWellFormed()).join(' ') + '\n';
  },
  // What follows is a script's own, behind its prelude.
  begin() { ids = words = 0; interned.clear(); },
};

// No script can change what it finds, so that all have one context; and the profile has no other global name.
const context = vm.createContext({});
vm.runInContext(`for (const it of Object.getOwnPropertyNames(globalThis)) if (!${JSON.stringify(kept)}.includes(it)) delete globalThis[it];`, context);
context.Proxy = profile;
const results = scripts.map(({ text: own, prelude, interns }) => {
  [lines, ids, words, interned] = ['', 0, 0, new Set()];
  let ending = '';
  try {
    const before = prelude === undefined ? '' : `${preludes[prelude]}; Proxy.begin(); `;
    vm.runInContext(`'use strict'; { ${before}${own} }`, context, { timeout: 20000 });
  } catch (error) { ending = `${error.name}`; }
  return [lines, ending, ids, words, interns ? [...interned] : null];
});
process.stdout.write(JSON.stringify(results));
