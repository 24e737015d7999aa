'use strict';
// The opening of Alice's Adventures in Wonderland: laid out in lines, counted and searched.
const text = 'Alice was beginning to get very tired of sitting by her sister on the bank, ' +
  'and of having nothing to do: once or twice she had peeped into the book her sister was ' +
  'reading, but it had no pictures or conversations in it, \u2018and what is the use of a ' +
  'book,\u2019 thought Alice \u2018without pictures or conversations?\u2019';
const words = text.split(' ');

// Lines of at most 40 units. A loop's bound is a number, so it goes on past the last word.
let line = '';
let lines = 0;
for (let i = 0; i < 1000; i++) {
  if (i < words.length) {
    const longer = line === '' ? words[i] : line + ' ' + words[i];
    if (longer.length <= 40) {
      line = longer;
    } else {
      lines += 1;
      print(String(lines).padStart(3) + ' | ' + line.padEnd(40) + ' |');
      line = words[i];
    }
  }
}
print(String(lines + 1).padStart(3) + ' | ' + line.padEnd(40) + ' |');

// Words without the marks around them: how many, how many different ones, and the longest.
let bare = text.replaceAll('\u2018', '').replaceAll('\u2019', '');
for (let i = 0; i < 4; i++) {
  bare = bare.replaceAll(',:?.'[i], '');
}
const plain = bare.split(' ');
let seen = ' ';
let different = 0;
let longest = '';
for (let i = 0; i < 1000; i++) {
  if (i < plain.length) {
    if (!seen.includes(' ' + plain[i] + ' ')) {
      seen += plain[i] + ' ';
      different += 1;
    }
    longest = plain[i].length > longest.length ? plain[i] : longest;
  }
}
print(plain.length, 'words,', different, 'of them different, the longest', JSON.stringify(longest));

// The five commonest letters, each with a bar.
let used = '';
for (let rank = 0; rank < 5; rank++) {
  let letter = '';
  let most = 0;
  for (let i = 0; i < 26; i++) {
    const here = String.fromCharCode(97 + i);
    const often = text.split(here).length - 1;
    if (often > most && !used.includes(here)) {
      letter = here;
      most = often;
    }
  }
  used += letter;
  print(letter, String(most).padStart(2), '#'.repeat(most));
}

// Each place of a word, with what stands around it.
let from = 0;
for (let i = 0; i < 100; i++) {
  const at = from < 0 ? -1 : text.indexOf('book', from);
  if (at >= 0) {
    print(String(at).padStart(3), JSON.stringify(text.slice(at - 8, at + 9)));
  }
  from = at < 0 ? -1 : at + 1;
}
