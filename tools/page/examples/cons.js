'use strict';
// A cons joins two strings without a copy.
let list = 'a line of words';
for (let i = 0; i < 5; i++) {
  list += ', and one more';
}
const whole = list + '.';
// A length needs no units, so nothing is copied.
print(whole.length);
// A unit: the rope becomes flat, once for all.
print(whole.at(-1));
// Both sides may be one string.
const again = whole + whole;
print(again.length);
