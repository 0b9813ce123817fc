// Charts of an attack by hours: lines with their names at the right end, and perhaps a bound.
const CHART = { left: 44, top: 10, width: 530, height: 170 };
// How far the names of lines are apart, and where each is tried beside the end of its line.
const APART = 14, BESIDE_END = [0, 1, -1, 2, -2, 3, -3].map(step => step * APART);

function svgLine(x1, y1, x2, y2, style) {
  return `<line x1="${x1}" y1="${y1}" x2="${x2}" y2="${y2}" ${style}/>`;
}

function svgText(x, y, words, anchor) {
  return `<text x="${x}" y="${y}" text-anchor="${anchor || "start"}">${words}</text>`;
}

// The heights of the names of lines that end at these heights, so that none hides another.
function namePlaces(ends) {
  const used = [];
  for (const end of ends) {
    const isFree = at => used.every(other => Math.abs(other - at) >= APART);
    used.push(BESIDE_END.map(step => end + step).find(isFree) ?? end);
  }
  return used;
}

// The elements of a chart of these lines, whose values are at most `most`, with a line at the hour
// that is shown.
function chartOf(lines, most, unit, bound) {
  const { left, top, width, height } = CHART, right = left + width, bottom = top + height;
  const last = snaps.length - 1, { begins } = attack;
  const x = hour => left + (last ? width * hour / last : 0);
  const y = value => bottom - height * Math.min(value, most) / most;
  const upright = (hour, style) => svgLine(x(hour), top, x(hour), bottom, style);
  const along = (value, style) => svgLine(left, y(value), right, y(value), style);
  const point = (value, hour) => `${hour ? "L" : "M"}${x(hour).toFixed(1)} ${y(value).toFixed(1)}`;
  const grid = joined([0, 1, 2, 3, 4].map(k => most * k / 4), value =>
    along(value, 'stroke="var(--line)"') + svgText(left - 6, y(value) + 4, value + unit, "end"));
  const ends = lines.map(line => y(line.values[last]));
  const names = [...lines.map(line => line.name), ...bound ? [`bound: ${bound}`] : []];
  const places = namePlaces(bound ? [...ends, y(bound)] : ends);
  return [
    grid,
    begins > last ? "" : upright(begins, 'stroke="var(--dim)" stroke-dasharray="2 3"') +
      svgText(x(begins) + 4, top + 14, "the attack begins"),
    bound ? along(bound, 'stroke="var(--ink)" stroke-dasharray="6 4"') : "",
    ...lines.map(({ values, stroke, dash }) =>
      `<path d="${joined(values, point)}" fill="none" stroke="var(${stroke})" ` +
      `stroke-width="2" stroke-dasharray="${dash}"/>`),
    ...names.map((name, k) => svgText(right + 6, places[k] + 4, name)),
    upright(at, 'stroke="var(--ink)"'),
    svgText(left, bottom + 20, "hour 0"),
    svgText(right, bottom + 20, `hour ${last}`, "end"),
  ].join("");
}
