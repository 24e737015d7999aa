// Work on properties of known names, for the time.
function Point(x, y) { this.x = x; this.y = y; }
Point.prototype.add = function (p) { this.x = (this.x + p.x) % 1009; this.y = (this.y + p.y) % 1009; return this; };
var point = new Point(0, 0), step = new Point(3, 5), table = {}, keys = [];
for (var i = 0; i < 64; i++) keys.push('key' + i);
for (i = 0; i < 60000; i++) { point.add(step); table[keys[i % 64]] = point.x; }
print(point.x, point.y, table.key0, table.key63);
