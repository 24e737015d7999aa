// Property names of all kinds: short and long, Latin, from elsewhere, unpaired surrogates, indexes.
var o = {}, names = ['a', 'length', 'caf\u00e9', '\u4e16\u754c', '\ud83d\ude00', '\ud800', '\udc00x', 'a\u0000b', '', ' ', '0', '01', '-1', '4294967295',
  '__proto_', 'a name that is longer than thirty-two units, so that nothing short serves'];
names.forEach(function (name, i) { o[name] = i; });
assert(Object.keys(o).length === names.length, 'each name is another');
names.forEach(function (name, i) { assert(o[name] === i && name in o && o.hasOwnProperty(name), 'name ' + i); });
print(Object.keys(o).sort().join('|'));
print(JSON.stringify(o));
delete o.a;
assert(!('a' in o) && o.a === undefined, 'a deleted name is gone');
o.a = 'again';
assert(o['' + 'a'] === 'again', 'a name that was joined is the same name');
var half = '\ud83d', other = '\ude00';
print(half + other in o, half in o);
for (var i = 0; i < 300; i++) o['k' + i % 150] = i;
print(Object.keys(o).length, o.k149, o['k' + 7]);
var back = JSON.parse(JSON.stringify({ outer: { 'caf\u00e9': [1, { 'x y': null }] } }));
print(back.outer['caf\u00e9'][1]['x y'], Object.keys(back).join());
for (var name in { z: 1, y: 2, x: 3 }) print(name);
