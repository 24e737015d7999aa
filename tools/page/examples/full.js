'use strict';
// A heap of 24 ids, 32 words and 16 slots
// fills, since nothing is given back. Give it
// more ids, and run again.
let line = 'a line that grows';
for (let i = 0; i < 40; i++) {
  line += ' and grows';
  print(line.length);
}
