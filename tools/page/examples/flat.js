'use strict';
// Flat: the units themselves, a byte each, or
// two where one is over 255. A literal is in
// the string table: its string is fixed.
const empty = '';
const bytes = 'caf\u00e9';
const pairs = '\u03b1\u03c9';
// One code point, two units.
const cake = '\u{1F370}';
// Fewer than 13 units are copied.
const made = bytes + pairs;
const letter = 'abc'[1];
print(made, made.length, cake.length, letter);
