// Who has had a book for more than three weeks.
let count = 0;
for (let i = 0; i < 5; i++) {
  const cells = rows[i].split(';');
  const days = cells[0].trim().padStart(3, '0');
  const kind = days > '021' ? late : Symbol.for('in time');
  if (kind === late) {
    count += 1;
    print(cells[1].trim().padEnd(6) + cells[2].trim().padEnd(17) + days.slice(1) + ' days');
  }
}
print(line);
print(count, late.description, 'of', rows.length);
