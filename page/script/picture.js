// What is shown as SVG, in the colours of the reader's setting.

// The dots of one class in a table as a path: the longest runs in each row of a tile.
function pathOf(table, index) {
  const parts = [];
  for (let row = FIRST[table]; row < END[table]; row += 8) {
    for (let at = 0; at < 8;) {
      const isAlike = i => classes.of[i] === classes.of[row + at] && isLit(i) === isLit(row + at);
      let wide = 1;
      while (at + wide < 8 && isAlike(row + at + wide)) wide++;
      if (classes.of[row + at] === index && isLit(row + at)) {
        const [x, y] = dotOf(table, row + at);
        parts.push(`M${x} ${y}h${wide}v1h-${wide}z`);
      }
      at += wide;
    }
  }
  return parts.join("");
}

// The dots that are in use and not lit.
function fadedPath(table) {
  const parts = [];
  for (let i = FIRST[table]; i < END[table]; i++)
    if (classes.of[i] >= 0 && !isLit(i)) {
      const [x, y] = dotOf(table, i);
      parts.push(`M${x} ${y}h1v1h-1z`);
    }
  return parts.join("");
}

// A colour of the style sheet as `#rrggbb`.
const hexColour = name =>
  "#" + joined(colour(name), value => Math.round(value).toString(16).padStart(2, "0"));

// The title: which file, of which chain, how new, and with which asmap.
function titleOf() {
  const newest = data.newest ? `newest peer of ${when(data.newest).slice(0, 10)}` : "no peer";
  const chain = data.chain ? `chain ${data.chain}` : "from getrawaddrman";
  const map = asmap ? `asmap ${fileName(asmap.name)}` : "no asmap";
  return [snaps[at].label || fileName(snaps[at].name), chain, newest, map].join(", ");
}

// The map of a table: free slots, those that are not lit, and a path for each class.
function mapAsSvg(table) {
  const side = SIDE[table], left = table === "new" ? 24 : 640;
  const tiles = Array.from({ length: side * side }, (_, tile) => [tile % side, tile / side | 0]);
  const empty = joined(tiles, ([x, y]) => `M${9 * x} ${9 * y}h8v8h-8z`);
  const path = (paint, d, inner) => `<path fill="${hexColour(paint)}" d="${d}">${inner}</path>\n`;
  const paths = joined(classes.list, (one, index) => {
    const paint = isOneColour() ? "--lit" : one.paint;
    return path(paint, pathOf(table, index), `<title>${escape(one.name)}</title>`);
  });
  return svgText(left, 80, $(table + "-title").textContent) +
    `<g transform="translate(${left} 92) scale(2)" shape-rendering="crispEdges">\n` +
    path("--empty", empty, "") + path("--faded", fadedPath(table), "") + paths + "</g>\n";
}

function viewAsSvg() {
  const names = classes.list.filter(one => one.count)
    .map(one => [one.paint, `${one.name}: ${number(one.count)}`]);
  const key = joined([...names, ["--empty", "free"]], ([paint, name], k) => {
    const place = `x="640" y="${409 + 22 * k}" width="12" height="12"`;
    return `<rect ${place} fill="${hexColour(paint)}"/>${svgText(660, 420 + 22 * k, escape(name))}`;
  });
  const title = escape(titleOf()), by = $("mode").selectedOptions[0].textContent;
  return [
    '<svg xmlns="http://www.w3.org/2000/svg" viewBox="0 0 952 690" role="img">',
    `<title>The peer tables of ${title}</title>`,
    `<style>text{font:14px sans-serif;fill:${hexColour("--ink")}}</style>`,
    `<rect width="952" height="690" fill="${hexColour("--ground")}"/>`,
    svgText(24, 28, title),
    svgText(24, 50, `Colours by ${by}`),
    mapAsSvg("new") + mapAsSvg("tried") + key,
    "</svg>\n",
  ].join("\n");
}
