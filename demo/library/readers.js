// What each reader has, in the order of the loans. The line is still that of the prelude.
let done = ';';
for (let i = 0; i < 5; i++) {
  const reader = rows[i].split(';')[1].trim();
  if (done.indexOf(';' + reader + ';') < 0) {
    done += reader + ';';
    let books = '';
    for (let j = 0; j < 5; j++) {
      const cells = rows[j].split(';');
      if (cells[1].trim() === reader) {
        books += (books === '' ? '' : ', ') + cells[2].trim();
      }
    }
    print(reader.padStart(6) + ': ' + books);
  }
}
print(line);
