// Functions, prototypes, getters and setters, exceptions.
function counter(step) { var n = 0; return { up: function () { return n += step; }, get value() { return n; }, set value(v) { n = v; } }; }
var one = counter(1), ten = counter(10);
for (var i = 0; i < 5; i++) { one.up(); ten.up(); }
print(one.value, ten.value);
one.value = 100;
assert(one.up() === 101 && ten.value === 50, 'each counter has its own variables');
function Shape(name) { this.name = name; }
Shape.prototype.toString = function () { return this.name + ' of ' + this.area(); };
function Square(side) { Shape.call(this, 'square'); this.side = side; }
Square.prototype = Object.create(Shape.prototype, { area: { value: function () { return this.side * this.side; } } });
print(String(new Square(4)), new Square(1) instanceof Shape);
function fails(how) { try { how(); } catch (e) { return e.name + ': ' + e.message; } finally { ten.up(); } }
print(fails(function () { undefinedName; }));
print(fails(function () { null.field; }));
print(fails(function () { throw new RangeError('thrown'); }));
print(fails(function () { eval('var 1'); }));
print(ten.value, (function f(n) { return n < 2 ? n : f(n - 1) + f(n - 2); })(17));
with ({ inner: 'seen by with' }) print(inner);
print([1, 2, 3].map(function (x) { return function () { return x; }; }).map(function (f) { return f(); }).join());
