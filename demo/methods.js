'use strict';
// A small stock list, cut, trimmed and laid out.
print('NAME'.padEnd(8) + 'COUNT'.padStart(6) + '  NOTE');
print('='.repeat(20));
print('apple, 3 ,red'.split(',')[0].padEnd(8) + 'apple, 3 ,red'.split(',')[1].trim().padStart(6) + '  red');
print('pear,12,green'.split(',')[0].padEnd(8) + 'pear,12,green'.split(',')[1].trim().padStart(6) + '  green');
print('-'.repeat(20));
// Templates, lists and quoting.
print('apple/pear/fig'.replaceAll('/', ' $& '), 'apple/pear/fig'.replace('/', "[$`|$']"));
print('apple/pear/fig'.split('/').join(), 'apple/pear/fig'.split('/').length);
print(JSON.stringify('dried and "sweet"\n'), JSON.stringify('apple/pear/fig'.split('/')));
// Code units and code points.
print('\u{1F600}'.length, '\u{1F600}'.codePointAt(0), String.fromCodePoint(128512), '\ud83d'.isWellFormed());
