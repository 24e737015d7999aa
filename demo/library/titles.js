// Each title once, with how often it is lent.
let seen = ';';
line = line.replaceAll('-', '=');
for (let i = 0; i < 5; i++) {
  const title = rows[i].split(';')[2].trim();
  if (!seen.includes(';' + title + ';')) {
    seen += title + ';';
    print(title.padEnd(28, '.') + String(loans.split(title).length - 1).padStart(2, '.'));
  }
}
print(line);
print(JSON.stringify(seen.slice(1, -1).split(';')));
