'use strict';
// A small stock list: name, count, note.
let table = ' apple, 3 ,red ; pear,12,green;fig ,7, dried and "sweet";plum,140,';
const rows = table.split(';');
let cells = rows;
let name = '';
let count = '';
let note = '';
let names = '';
let missing = 0;
print('NAME'.padEnd(8) + 'COUNT'.padStart(6) + '  NOTE');
print('='.repeat(20));
for (let i = 0; i < 4; i++) {
  cells = rows[i].split(',');
  name = cells[0].trim();
  count = cells[1].trim();
  note = cells[2].trim();
  if (note === '') {
    note = 'none';
    missing = missing + 1;
  }
  print(name.padEnd(8) + count.padStart(6) + '  ' + note);
  if (i > 0) {
    names += '/';
  }
  names += name;
}
print('-'.repeat(20));
print('rows', rows.length, 'missing', missing);
print(names);
print(names.replaceAll('/', ' $& '));
print(names.split('/').join());
print(JSON.stringify(names.split('/')));
