'use strict';
// Runs as it stands: tools/jsstr demo/hello.js
print('Hello,', 'world!');
print('abc'.at(-1), 'abcdef'.slice(1, 4), 'abc'.length, 1 + 2 + 'x');
print("\u{1F600} is two code units:", '\u{1F600}'.length);
print('an unpaired surrogate prints as', '\ud83d'); /* U+FFFD */
print(undefined + '', null + 1, -true, 9007199254740991 - 1);
