"use strict";
// The engine: the project's code as WebAssembly, and one call on it. Addresses are BigInts.
class Engine {
  static ROOM = 1 << 20;
  static NAMES = 1 << 16;
  static KINDS = ["RangeError", "TypeError", "ReferenceError", "URIError"];

  // A worker has half of the stack of a page's main thread, too little for a script that nests 200 deep; a promising call has a stack of its own.
  constructor(exports) {
    this.exports = exports;
    this.call = WebAssembly.promising ? WebAssembly.promising(exports.jsstr_web_run) : exports.jsstr_web_run;
  }

  static async of(bytes) { return new Engine((await WebAssembly.instantiate(bytes, {})).instance.exports); }

  static bytes(text) { return typeof text == "string" ? new TextEncoder().encode(text) : text; }

  take(size) {
    const at = this.exports.web_take(BigInt(Math.max(1, size)));
    if (!at) throw new RangeError("no memory for the page");
    return at;
  }

  view(Kind, at, length) { return new Kind(this.exports.memory.buffer, Number(at), length); }

  // Reads a text, runs its first statements on a heap of these sizes, and tells what came of them.
  async run({ids, words, slots, limit = 64, script, statements = 0xFFFFFFFF}) {
    const text = Engine.bytes(script), count = ids + words + slots > 2 ** 29 ? 0 : 2 + slots + 2 * ids + words;
    const sizes = [20, text.length, Engine.ROOM, Engine.NAMES, 8 * count, 40], at = sizes.map(size => this.take(size));
    this.view(Uint32Array, at[0], 5).set([ids, words, slots, limit, statements]);
    this.view(Uint8Array, at[1], text.length).set(text);
    this.view(Uint8Array, at[3], 1)[0] = 0;
    const began = performance.now();
    await this.call(at[0], at[1], BigInt(text.length), at[2], BigInt(Engine.ROOM), at[3], BigInt(Engine.NAMES), at[4], BigInt(count), at[5]);
    const told = this.told(at, count, performance.now() - began);
    at.forEach(it => this.exports.web_give(it));
    return told;
  }

  told(at, count, ms) {
    const [number, kind, offset, want, end] = this.view(Uint32Array, at[5], 5), [statements, length] = this.view(BigUint64Array, at[5] + 24n, 2);
    const bytes = this.view(Uint8Array, at[2], Math.min(Number(length), Engine.ROOM)).slice(), isRefused = number == 7;
    return {
      status: number == 10 ? 6 : number, kind: number == 1 ? Engine.KINDS[kind] : null, at: offset, want, end,
      statements: Number(statements), printed: isRefused ? new Uint8Array(0) : bytes, length: isRefused ? 0 : Number(length),
      refusal: isRefused ? new TextDecoder().decode(bytes) : null, words: number < 7 ? this.view(BigUint64Array, at[4], count).slice() : null,
      names: number < 7 ? this.names(at[3]) : [], ms,
    };
  }

  names(at) {
    const all = this.view(Uint8Array, at, Engine.NAMES), end = all.indexOf(0), whole = new TextDecoder().decode(all.slice(0, end < 0 ? Engine.NAMES : end));
    return whole.split("\n").slice(0, -1).map(line => { const [name, ...ids] = line.split(" "); return {name, ids: ids.map(Number)}; });
  }
}
