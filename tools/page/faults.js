// ---- How a script ended, and where

/** The place of a byte of a text: its index in it, and its line and column from 1, the column in characters. */
function placeOf(bytes, offset) {
  const text = new TextDecoder("utf-8", {ignoreBOM: true}), before = text.decode(bytes.slice(0, offset));
  const lines = before.split(/\r\n|[\n\r\u2028\u2029]/), head = lines.at(-1);
  const whole = head + text.decode(bytes.slice(offset)).split(/[\n\r\u2028\u2029]/, 1)[0];
  return {index: before.length, line: lines.length, column: [...head].length + 1, head, whole};
}

// The hints are those of the program's tools, whose regular expressions are Python's: there a \w is any letter.
const inJs = (source, flags = "") => source.includes("[^\\W\\d_]") ? new RegExp(source.replace("[^\\W\\d_]", "[\\p{L}\\p{Nl}\\p{No}]"), "u") : new RegExp(source.replaceAll("\\Z", "$"), flags);
function hintOf(hints, words, text, at) {
  const near = text.slice(Math.max(0, at - 400), at), rest = text.slice(at, at + 400);
  const found = hints.find(([of, before, after]) => of == words && inJs(`^(?:${after})`).test(rest) && inJs(`(?:${before})$`, "s").test(near));
  return found ? found[3] : "";
}

/** The end of a run in words. */
function saidOf(told) {
  const part = {3: "ids", 4: "content words", 5: "slots of the string table"}[told.status];
  switch (told.status) {
    case 0: return "Done.";
    case 1: return `Uncaught ${told.kind}.`;
    case 2: return "Unsupported: this value or operation is left out of the language.";
    case 3: case 4: return `The heap is full: it has ${counted(told.end)} ${part}, ${counted(told.at)} are claimed, and ${counted(told.want)} more ${told.want == 1 ? "was" : "were"} wanted. Give it more ${told.status == 3 ? "ids" : "words"}, in the field above.`;
    case 5: return `The heap is full: all ${counted(told.end)} ${part} are used. Give it more slots, in the field above.`;
    case 6: return "Out of memory: this browser gives no memory for a heap of this size.";
    case 7: return `Refused: ${told.refusal}. Nothing ran.`;
    case 8: return "Refused: the script has more than 1,048,576 bytes. Nothing ran.";
    case 9: return "No heap has these sizes: each is 1 to 536,870,911, and together they are at most 536,870,912.";
  }
  return `Status ${told.status}.`;
}

/** The box under the editor: how the run ended, and where the fault is, if it has a place, or else the statement in which the run ended, if it is known. */
function endBox(told, bytes, hints, statement) {
  const said = `<b>${escaped(saidOf(told))}</b>`;
  if (told.status != 2 && told.status != 7 && told.status && statement) {
    const {line, column} = placeOf(bytes, new TextEncoder().encode(new TextDecoder("utf-8", {ignoreBOM: true}).decode(bytes).slice(0, statement[0])).length);
    return {html: `${said} In the statement at line ${line}, column ${column}, found by running fewer of them.`, place: {index: statement[0], end: statement[1]}};
  }
  if (told.status != 2 && told.status != 7) return {html: said};
  const place = placeOf(bytes, told.at), text = new TextDecoder("utf-8", {ignoreBOM: true}).decode(bytes);
  // (a long line is shown around the place alone)
  const from = Math.max(0, place.head.length - 60), shown = place.whole.slice(from, from + 160), gap = place.head.slice(from).replace(/[^\t]/g, " ");
  const advice = hintOf(hints, told.status == 2 ? "unsupported" : told.refusal, text, place.index);
  return {html: `${said} Line ${place.line}, column ${place.column}, byte ${told.at}.<pre>${escaped(shown)}\n${gap}<span class="caret">^</span>${advice ? ` <span class="hint">${escaped(advice)}</span>` : ""}</pre>`, place};
}

/**
 * The places of a script's top statements, each from its first character to the one behind its last. A scanner of
 * brackets, strings and comments is enough for a text that is a script: a statement there ends with ; or a block.
 */
function statementsOf(text) {
  const token = /\/\/[^\n\r\u2028\u2029]*|\/\*[\s\S]*?\*\/|'(?:\\[\s\S]|[^'\\])*'|"(?:\\[\s\S]|[^"\\])*"|[\w$]+|[\s\ufeff]+|[\s\S]/g;
  const found = [];
  let depth = 0, start = -1, isBlock = false, match;
  while ((match = token.exec(text))) {
    const it = match[0];
    if (/^[\s\ufeff]|^\/[/*]/.test(it)) continue;
    if (start < 0 && it == "else") { start = found.pop()[0]; isBlock = true; continue; }
    if (start < 0) { start = match.index; isBlock = it == "{" || it == "if" || it == "for"; }
    if ("([{".includes(it)) depth++;
    if (")]}".includes(it)) depth--;
    if (depth == 0 && (it == ";" || it == "}" && isBlock)) { found.push([start, token.lastIndex]); start = -1; }
  }
  return found.filter(([from, to]) => !/^(['"])use strict\1\s*;$/.test(text.slice(from, to)));
}
