'use strict';
// Keys are interned: equal keys are one string.
const pear = { name: 'pear', note: 'ripe in May' };
const fig = { name: 'fig', note: 'dried' };
const field = 'na' + 'me';
print(pear[field], fig[field]);
const both = { first: pear, second: fig };
print(Object.keys(both.first).join(' '));
const written = JSON.stringify(both);
print(written);
const cells = 'pear,12,green'.split(',');
print(cells.length, cells[2]);
