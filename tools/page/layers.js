// ---- Boxes in rows: arrows go down, few of them cross, and none passes behind a box

/**
 * Places boxes. `below(id)` gives the ids that its arrows go to, a cons's two sides in their order.
 * `size` is {w, h, gapX, gapY}, `room` the width that there is. Where the size has a `most`, a row has at most so many
 * boxes, and the arrows to one box join on their way; its `way` is the width that a way past boxes takes. The answer
 * has the place of each box, and for each arrow the points that it goes through, the first at the foot of a box and
 * the last over another.
 */
function layered(ids, below, size, room) {
  const inside = new Set(ids), arrows = [];
  for (const from of ids) {
    const all = below(from);
    all.forEach((id, k) => { if (inside.has(id)) arrows.push({from, to: id, side: all.length == 2 ? 2 * k - 1 : 0}); });
  }
  const parts = components(ids, arrows).map(part => placedPart(part, size, room));
  parts.sort((a, b) => b.height - a.height || b.ids.length - a.ids.length || a.ids[0] - b.ids[0]);
  const at = new Map(), routes = [];
  let x = 0, y = 0, high = 0, width = 0;
  for (const part of parts) {
    if (x && x + part.width > room) { x = 0; y += high + size.gapY; high = 0; }
    for (const [id, place] of part.at) at.set(id, {x: place.x + x, y: place.y + y});
    for (const route of part.routes) routes.push({...route, points: route.points.map(([px, py]) => [px + x, py + y])});
    width = Math.max(width, x + part.width); x += part.width + size.gapX; high = Math.max(high, part.height);
  }
  return {at, routes, width, height: y + high};
}

// The boxes that arrows join, each part with its arrows.
function components(ids, arrows) {
  const of = new Map(ids.map(id => [id, {ids: [id], arrows: []}]));
  for (const {from, to} of arrows) {
    let [a, b] = [of.get(from), of.get(to)];
    if (a === b) continue;
    if (a.ids.length < b.ids.length) [a, b] = [b, a];
    a.ids.push(...b.ids);
    for (const id of b.ids) of.set(id, a);
  }
  for (const arrow of arrows) of.get(arrow.from).arrows.push(arrow);
  const parts = [...new Set(of.values())];
  parts.forEach(part => part.ids.sort((a, b) => a - b));
  return parts;
}

// The row of each box, from the top: one below the lowest of those that point to it, and over a root's first target.
function rowsOf({ids, arrows}) {
  const row = new Map(), over = new Map(ids.map(id => [id, []])), under = new Map(ids.map(id => [id, []]));
  for (const {from, to} of arrows) { over.get(to).push(from); under.get(from).push(to); }
  const depth = id => { if (!row.has(id)) row.set(id, Math.max(-1, ...over.get(id).map(depth)) + 1); return row.get(id); };
  ids.forEach(depth);
  for (const id of ids) if (!over.get(id).length && under.get(id).length) row.set(id, Math.min(...under.get(id).map(depth)) - 1);
  const first = Math.min(...row.values());
  for (const id of ids) row.set(id, row.get(id) - first);
  return row;
}

// The row of each box where a row has at most so many. A box comes behind all that point to it; of two sides the deeper one comes last.
function narrowRowsOf({ids, arrows}, most) {
  const under = new Map(ids.map(id => [id, []])), isUnder = new Set(arrows.map(it => it.to)), heights = new Map(), order = new Set(), row = new Map();
  for (const {from, to} of arrows) under.get(from).push(to);
  const height = id => { if (!heights.has(id)) heights.set(id, Math.max(-1, ...under.get(id).map(height)) + 1); return heights.get(id); };
  const visit = id => { if (order.has(id)) return; [...under.get(id)].sort((a, b) => height(b) - height(a)).forEach(visit); order.add(id); };
  ids.filter(id => !isUnder.has(id)).sort((a, b) => height(a) - height(b)).forEach(visit);
  let last = [], r = 0;
  for (const id of [...order].reverse()) {
    if (last.length == most || last.some(it => under.get(it).includes(id))) { r++; last = []; }
    row.set(id, r); last.push(id);
  }
  return row;
}

// Rows of cells: boxes, and for an arrow past rows a narrow cell in each of them. A link joins cells of two rows. A cell's width has its gap in it.
function cellsOf(part, size) {
  const row = size.most ? narrowRowsOf(part, size.most) : rowsOf(part), rows = [], cells = new Map(), ways = new Map();
  const add = (r, cell) => { (rows[r] ||= []).push(cell); Object.assign(cell, {row: r, up: [], down: []}); return cell; };
  for (const id of part.ids) cells.set(id, add(row.get(id), {id, w: size.w + size.gapX}));
  const wayTo = (to, r) => {
    const name = `${to} ${r}`;
    if (!size.most || !ways.has(name)) ways.set(name, add(r, {w: size.way ?? 6 + size.gapX}));
    return ways.get(name);
  };
  for (const arrow of part.arrows) {
    arrow.cells = [cells.get(arrow.from)];
    for (let r = row.get(arrow.from) + 1; r < row.get(arrow.to); r++) arrow.cells.push(wayTo(arrow.to, r));
    arrow.cells.push(cells.get(arrow.to));
    arrow.cells.slice(1).forEach((b, k) => {
      const a = arrow.cells[k], link = {a, b, side: k ? 0 : arrow.side};
      if (!k || !a.down.length) { a.down.push(link); b.up.push(link); }
    });
  }
  return {rows, cells};
}

const crossed = row => {
  const links = row.flatMap(cell => cell.down), from = links.map(it => it.a.n + it.side / 3), to = links.map(it => it.b.n);
  let count = 0;
  for (let i = 0; i < links.length; i++) for (let j = 0; j < i; j++) if ((from[i] - from[j]) * (to[i] - to[j]) < 0) count++;
  return count;
};
const numbered = row => row.forEach((cell, n) => { cell.n = n; });
const mean = (all, otherwise) => all.length ? all.reduce((a, b) => a + b, 0) / all.length : otherwise;

// Orders the cells of each row by the middle of what they are linked to, down and up in turn, and keeps the best order.
function ordered(rows) {
  const seen = new Set(), start = rows.map(() => []);
  const walk = cell => { if (seen.has(cell)) return; seen.add(cell); start[cell.row].push(cell); [...cell.down].sort((a, b) => a.side - b.side).forEach(it => walk(it.b)); };
  rows.flat().forEach(walk);
  rows = start; rows.forEach(numbered);
  let best = rows.map(row => [...row]), least = rows.reduce((sum, row) => sum + crossed(row), 0);
  for (let turn = 0; turn < 24 && least; turn++) {
    const down = turn % 2 == 0, order = down ? rows : [...rows].reverse();
    for (const row of order) {
      const middle = cell => down ? mean(cell.up.map(it => it.a.n + it.side / 3), cell.n) : mean(cell.down.map(it => it.b.n - it.side / 3), cell.n);
      const of = new Map(row.map(cell => [cell, middle(cell)]));
      row.sort((a, b) => of.get(a) - of.get(b) || (turn % 4 < 2 ? a.n - b.n : b.n - a.n)); numbered(row);
    }
    const count = rows.reduce((sum, row) => sum + crossed(row), 0);
    if (count < least) { least = count; best = rows.map(row => [...row]); }
  }
  best.forEach(numbered);
  return best;
}

// The places nearest to the wanted ones at which the cells of a row keep their order and their gaps, and the row its room, whose middle is 0.
function spread(row, wanted, room) {
  const blocks = [], width = row.reduce((sum, cell) => sum + cell.w, 0), first = (row[0].w - width) / 2, spare = Math.max(0, room - width) / 2;
  let from = 0;
  row.forEach((cell, k) => {
    if (k) from += (row[k - 1].w + cell.w) / 2;
    const weight = cell.id === undefined ? 4 : 1;
    let block = {sum: weight * (wanted[k] - from), weight, froms: [from]};
    while (blocks.length && blocks.at(-1).sum / blocks.at(-1).weight > block.sum / block.weight) {
      const before = blocks.pop();
      block = {sum: before.sum + block.sum, weight: before.weight + block.weight, froms: [...before.froms, ...block.froms]};
    }
    blocks.push(block);
  });
  blocks.flatMap(it => it.froms.map(from => Math.max(first - spare, Math.min(first + spare, it.sum / it.weight)) + from)).forEach((x, k) => { row[k].x = x; });
}

// One part of the drawing, its boxes' places from 0 on.
function placedPart(part, size, room) {
  const {rows: made, cells} = cellsOf(part, size), rows = ordered(made), port = size.w / 5, most = size.most ? room + size.gapX : Infinity;
  for (const row of rows) spread(row, row.map(() => 0), most);
  for (let turn = 0; turn < 12; turn++) {
    const up = cell => cell.up.map(it => it.a.x + it.side * port), down = cell => cell.down.map(it => it.b.x - it.side * port);
    const wish = turn > 9 ? cell => mean([...up(cell), ...down(cell)], cell.x) : turn % 2 ? cell => mean(down(cell), cell.x) : cell => mean(up(cell), cell.x);
    for (const row of turn % 2 ? [...rows].reverse() : rows) spread(row, row.map(wish), most);
  }
  const all = rows.flat(), left = Math.min(...all.map(it => it.x - it.w / 2)) + size.gapX / 2, top = it => it.row * (size.h + size.gapY);
  all.forEach(it => { it.x -= left; });
  const at = new Map([...cells].map(([id, it]) => [id, {x: it.x - size.w / 2, y: top(it)}]));
  // (arrows to one box end side by side, in the order in which they come)
  const ends = new Map();
  for (const {b} of all.flatMap(it => it.down)) {
    const came = [...b.up].sort((p, q) => p.a.x + p.side * port - q.a.x - q.side * port), step = Math.min(14, size.w / 2 / came.length);
    came.forEach((link, k) => ends.set(link, b.id === undefined ? 0 : (k - (came.length - 1) / 2) * step));
  }
  const routes = part.arrows.map(({from, to, side, cells: way}) => {
    const points = [[way[0].x + side * port, top(way[0]) + size.h]];
    for (const cell of way.slice(1, -1)) points.push([cell.x, top(cell)], [cell.x, top(cell) + size.h]);
    const end = way.at(-1), link = way.at(-2).down.find(it => it.b === end && (way.length > 2 || it.side == side));
    points.push([end.x + ends.get(link), top(end)]);
    return {from, to, side, points};
  });
  return {ids: part.ids, at, routes, width: Math.max(...all.map(it => it.x + it.w / 2)) - size.gapX / 2, height: rows.length * (size.h + size.gapY) - size.gapY};
}

/** The path of an arrow through its points, and the path of its head. */
function arrowPaths({points}) {
  let d = `M${points[0][0]} ${points[0][1]}`;
  const [tipX, tipY] = points.at(-1), ends = [...points.slice(0, -1), [tipX, tipY - 7]];
  for (let k = 1; k < ends.length; k++) {
    const [[x1, y1], [x2, y2]] = [ends[k - 1], ends[k]], m = (y2 - y1) / 2;
    d += k % 2 ? `C${x1} ${y1 + m} ${x2} ${y2 - m} ${x2} ${y2}` : `L${x2} ${y2}`;
  }
  return [d, `M${tipX - 5} ${tipY - 7}h10l-5 7z`];
}
