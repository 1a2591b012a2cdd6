// The lines of areas, which stand for fills: one for each rectangle of the polygon's pixels, in bands from top to bottom.
"use strict";

// Of each row the columns from which on an edge more, or less, lies to the left: inside is behind an odd number of them.
function crossings(points, y) {
  const found = [];
  points.forEach(([x, from], index) => {
    const [otherX, to] = points[(index + 1) % points.length];
    const [x1, y1, x2, y2] = from < to ? [x, from, otherX, to] : [otherX, to, x, from];
    if (y1 <= y && y < y2) found.push(x1 + Math.ceil((y - y1) * (x2 - x1) / (y2 - y1)));
  });
  return found.sort((a, b) => a - b);
}

const remainder = (number, by) => (number % by + by) % by;

// The runs of a row: the first and the last column of each.
function runsOf(points, y, pattern) {
  const row = crossings(points, y), word = pattern[remainder(y, pattern.length)], runs = [];
  for (let at = 0; at < row.length; at += 2) {
    for (let x = row[at]; x < row[at + 1]; x++) {
      const last = runs[runs.length - 1];
      if (!(word >> (15 - remainder(x, 16)) & 1)) continue;
      if (last && last[1] === x - 1) last[1] = x;
      else runs.push([x, x]);
    }
  }
  return runs;
}

function areaRectangles(points, pattern) {
  const rows = points.map(it => it[1]), bands = [];
  for (let y = Math.min(...rows); y < Math.max(...rows); y++) {
    const runs = runsOf(points, y, pattern), last = bands[bands.length - 1];
    if (last && last.end === y - 1 && String(last.runs) === String(runs)) last.end = y;
    else if (runs.length) bands.push({ start: y, end: y, runs });
  }
  return bands.flatMap(({ start, end, runs }) => runs.map(([x0, x1]) => [x0, start, x1, end]));
}
