'use strict';
// To intern a string is to look its units up in
// the table. Where another string has them, this
// one forwards to it: it is thin from then on.
const name = 'the name of a symbol';
const joined = name.slice(0, 8) + ' of a symbol';
print(joined === name);
const first = Symbol.for(joined);
// These units are new: a fixed flat over the
// same words takes a slot.
const words = name.slice(4) + ', and another';
const second = Symbol.for(words);
const once = name.slice(4) + ', and ' + 'another';
const third = Symbol.for(once);
print(first === Symbol.for(name));
print(second === third);
