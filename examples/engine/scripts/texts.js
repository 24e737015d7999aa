// Strings, regular expressions and numbers.
var text = 'The quick brown fox jumps over the lazy dog';
print(text.split(' ').reverse().join(' '), text.length, text.toUpperCase());
print(text.replace(/(\w+) (\w+)/g, '$2 $1'), text.search(/fox/), text.match(/o\w/g).join());
print(text.slice(-3), text.substring(4, 9), text.indexOf('o', 15), text.lastIndexOf('o'), text.charCodeAt(4));
for (var i = 0, sum = 0; i < text.length; i++) sum += text.charCodeAt(i);
print(sum, encodeURIComponent('caf\u00e9 & co'), decodeURIComponent('%E4%B8%96'));
print((255).toString(16), (0.1 + 0.2).toString(), (1e21).toString(), (1234.5678).toFixed(2), parseInt('0x1f'), parseFloat('3.5kg'));
print('\u4e16\u754c'.length, '\u4e16\u754c'.charAt(1), 'a,b,,c'.split(',').length, ' trimmed '.trim() + '.');
print(/^(\d{4})-(\d\d)$/.exec('2026-11').slice(1).join('/'), 'aaa'.replace(/a/g, function (m, at) { return at; }));
var big = '';
for (i = 0; i < 2000; i++) big += String.fromCharCode(97 + i % 26);
print(big.length, big.indexOf('xyza'), big.slice(1990));
print(isNaN('x'), Number(''), Number(' 12 '), -0 + '', [1, [2, 3]] + '', {} + '', typeof null);
print(Math.max(3, 7), Math.round(2.5), Math.floor(-1.5), Math.pow(2, 31));
print(new Date(0).toISOString(), Date.UTC(2026, 10, 30));
