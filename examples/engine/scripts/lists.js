// Lists, their methods and their indexes as names.
var list = [];
for (var i = 0; i < 500; i++) list.push(i * 7919 % 500);
print(list.slice(0, 10).join(), list.length);
list.sort(function (a, b) { return a - b; });
assert(list.every(function (x, at) { return x === at; }), 'sorted');
print(list.filter(function (x) { return x % 50 === 0; }).join(), list.reduce(function (a, b) { return a + b; }));
print(list.indexOf(250), list.lastIndexOf(-1), list.some(function (x) { return x > 498; }));
var sparse = [];
sparse[3] = 'three';
sparse['7'] = 'seven';
sparse.named = true;
print(sparse.length, Object.keys(sparse).join(), '3' in sparse, 2 in sparse);
sparse.length = 4;
print(sparse.join('-'), Object.keys(sparse).join());
print(list.splice(2, 3, 'x', 'y').join(), list.slice(0, 6).join(), list.concat([1, 2]).length);
print([3, 1, 2].sort().toString(), ['b', undefined, 'a'].sort().join(), [1, 2, 3].reverse().join());
var args = (function () { return Array.prototype.slice.call(arguments, 1); })(1, 2, 3);
print(args.join(), Array.isArray(args), [].concat.apply([], [[1], [2, 3]]).length);
