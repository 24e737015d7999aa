'use strict';
// The loans of a small library: days, reader and title. Each script beside goes on from these bindings:
// cd demo/library; ../../tools/jsstr --prelude prelude.js --summary late.js titles.js readers.js
const loans = ' 12; Ada ;Emma\n 31;Ben;Persuasion\n  4;Ada; Emma\n 25;Cleo;Northanger Abbey\n 30;Ben; Emma';
const rows = loans.split('\n');
const late = Symbol.for('late');
let line = '-'.repeat(30);
