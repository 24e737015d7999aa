'use strict';
// A slice of 13 units or more points into its
// parent, and copies nothing.
const text = 'The quick brown fox saw the dog';
const fox = text.slice(4, 19);
const dog = text.slice(17);
// A slice of a slice has the first parent.
const nested = fox.slice(1, 15);
// Fewer than 13 units are copied.
const short = text.slice(0, 9);
// A rope becomes flat before it is cut.
const rope = fox + ', ' + dog;
const cut = rope.slice(3, 25);
print(nested, short, cut);
