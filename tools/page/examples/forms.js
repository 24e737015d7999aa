'use strict';
// Each string is a box. Move the slider, and
// see what each statement makes.
const word = 'a string of one-byte units';
const wide = 'two-byte: \u03b1 to \u03c9';
// A slice points to its parent, a cons to two.
const part = word.slice(2, 20);
const rope = word + ', ' + wide;
const more = part + '; ' + rope;
// Under 13 units are copied.
const made = 'of ' + 'one' + '-byte';
// A search makes a rope flat, for all.
print(rope.indexOf('two-byte'));
// The table has these units already, so this
// slice forwards to its string.
const seen = (word + '!').slice(0, 26);
const key = Symbol.for(seen);
print(made, key.description === word);
