'use strict';
// A small table becomes JSON: an object for each line, and one that holds them all.
const table = 'pear,12,green\nfig,7,dried and "sweet"\nplum,140,';
const lines = table.split('\n');
let all = {};
for (let i = 0; i < 3; i++) {
  const cells = lines[i].split(',');
  const row = { name: cells[0], count: cells[1], note: cells[2] === '' ? undefined : cells[2], line: i + 1 };
  print(JSON.stringify(row));
  all = { row: row, before: all };
}
// A member is read by its name or by a key, and undefined where there is none.
print(Object.keys(all.row).join(' '), all.row.name, all.before['row']['note'], all.before.after);
// Keys that are the text of an index come first, from the least to the greatest.
print(JSON.stringify({ total: all.row.line, 10: 'ten', 9: 'nine', last: all }));
