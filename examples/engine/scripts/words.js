// A map of many words, and what evaluated text declares.
var counts = {}, seed = 1;
function chance(below) { seed = (seed * 16807) % 2147483647; return seed % below; }
for (var i = 0; i < 20000; i++) {
  var word = 'w' + chance(50) + (chance(2) ? 'ing' : 'ed') + chance(60);
  counts[word] = (counts[word] || 0) + 1;
}
var words = Object.keys(counts).sort(function (a, b) { return counts[b] - counts[a] || (a < b ? -1 : 1); });
print(words.length, words.slice(0, 5).map(function (w) { return w + ' ' + counts[w]; }).join(', '));
assert(words.reduce(function (sum, w) { return sum + counts[w]; }, 0) === 20000, 'each word is counted');
for (i = 0; i < 40; i++) eval('var made' + i + ' = ' + i + '; function twice' + i + '() { return made' + i + ' * 2; }');
print(made39 + twice20(), typeof made40, new Function('p', 'q', 'return p + q')(20, 22));
