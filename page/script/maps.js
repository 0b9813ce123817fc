// The two maps: a tile is a bucket, its 8 x 8 dots are the slots, row by row.
const bitmaps = {}, scale = { new: 1, tried: 1 };
// Whether the maps are as large as there is room.
let isFitted = false;
// The bucket of each tile, and the tile of each bucket.
const order = {}, tileOf = {};
const sizeOf = table => 9 * SIDE[table] - 1;
// How much room is left beside the maps, by the columns of the layout.
const BESIDE = { 3: 320, 2: 20 };

// Puts the buckets in their order, or those first that have most of what is chosen.
function sortBuckets() {
  for (const table of TABLES) {
    const count = SIDE[table] * SIDE[table], counts = Array.from({ length: count }, () => [0, 0]);
    if ($("sort").checked)
      for (let i = FIRST[table]; i < END[table]; i++) {
        const one = counts[(i - FIRST[table]) >> 6], c = classes.of[i];
        if (c < 0) continue;
        if (highlight ? isLit(i) : c === 0) one[0]++;
        if (!highlight) one[1] += 1 / (1 + c);
      }
    order[table] = Int32Array.from({ length: count }, (_, bucket) => bucket);
    const byCounts = ([a, b], [c, d]) => c - a || d - b;
    order[table].sort((a, b) => byCounts(counts[a], counts[b]) || a - b);
    tileOf[table] = new Int32Array(count);
    for (let tile = 0; tile < count; tile++) tileOf[table][order[table][tile]] = tile;
  }
}

// The dot of a slot, from the left and from the top.
function dotOf(table, i) {
  const k = i - FIRST[table], tile = tileOf[table][k >> 6], slot = k & 63;
  return [9 * (tile % SIDE[table]) + (slot & 7), 9 * Math.floor(tile / SIDE[table]) + (slot >> 3)];
}

// A colour as a pixel of an image, whose bytes are red, green, blue and how opaque it is.
const pixelOf = ([red, green, blue]) => (255 << 24 | blue << 16 | green << 8 | red) >>> 0;

// A table as an image, a pixel for each dot.
function imageOf(table, paints, empty, faded) {
  const size = sizeOf(table), image = new ImageData(size, size), side = SIDE[table];
  const pixels = new Uint32Array(image.data.buffer), { of } = classes;
  for (let i = FIRST[table]; i < END[table]; i++) {
    const k = i - FIRST[table], tile = tileOf[table][k >> 6], slot = k & 63, c = of[i];
    const x = 9 * (tile % side) + (slot & 7), y = 9 * (tile / side | 0) + (slot >> 3);
    pixels[y * size + x] = c < 0 ? empty : !highlight || isLit(i) ? paints[c] : faded;
  }
  return image;
}

function drawMaps() {
  sortBuckets();
  const pixel = name => pixelOf(colour(name));
  const paints = classes.list.map(c => pixel(isOneColour() ? "--lit" : c.paint));
  const empty = pixel("--empty"), faded = pixel("--faded");
  for (const table of TABLES) {
    const size = sizeOf(table), bitmap = bitmaps[table] ||= document.createElement("canvas");
    bitmap.width = bitmap.height = size;
    bitmap.getContext("2d").putImageData(imageOf(table, paints, empty, faded), 0, 0);
  }
  $("new-title").textContent = `New table: ${number(data.used.new)} of 65,536 slots`;
  $("tried-title").textContent = `Tried table: ${number(data.used.tried)} of 16,384 slots`;
  for (const table of TABLES) {
    const label = `${$(table + "-title").textContent}. Arrows go through slots.`;
    $(table).setAttribute("aria-label", label);
    if (isFitted) paint(table);
  }
  if (!isFitted) fit();
}

// Makes the maps as large as there is room. A dot is a whole number of the screen's pixels wide.
function fit() {
  if (!data) return;
  isFitted = true;
  const ratio = window.devicePixelRatio || 1, width = $("maps").clientWidth;
  const columns = getComputedStyle($("maps")).gridTemplateColumns.split(" ").length;
  const both = sizeOf("new") + sizeOf("tried");
  const wide = (width - (BESIDE[columns] || 0)) / both;
  for (const table of TABLES) {
    const canvas = $(table), size = sizeOf(table);
    const alone = Math.min(width, table === "new" ? width : both) / size;
    const k = Math.max(1, Math.floor((columns === 1 ? alone : wide) * ratio));
    scale[table] = k / ratio;
    canvas.width = canvas.height = k * size;
    canvas.style.width = canvas.style.height = k * size / ratio + "px";
    paint(table);
  }
}

// Paints a map, with frames around the slot of the cursor, its bucket, and the peer's other slots.
function paint(table) {
  const canvas = $(table), context = canvas.getContext("2d"), k = canvas.width / sizeOf(table);
  context.imageSmoothingEnabled = false;
  context.clearRect(0, 0, canvas.width, canvas.height);
  context.drawImage(bitmaps[table], 0, 0, canvas.width, canvas.height);
  if (cursor === null) return;
  const ink = `rgb(${colour("--ink")})`;
  const frame = (i, wide) => {
    const [x, y] = dotOf(table, i);
    context.strokeStyle = ink;
    context.lineWidth = wide;
    context.strokeRect(x * k - wide / 2, y * k - wide / 2, k + wide, k + wide);
  };
  const rec = data.slots[cursor], first = FIRST[table], end = END[table];
  if (rec >= 0)
    for (let i = first; i < end; i++)
      if (data.slots[i] === rec && i !== cursor) frame(i, 2);
  if (cursor < first || cursor >= end) return;
  const [left, top] = dotOf(table, first + (cursor - first & ~63));
  context.strokeStyle = `rgb(${colour("--dim")})`;
  context.lineWidth = Math.max(1, k / 3);
  context.strokeRect((left - 0.5) * k, (top - 0.5) * k, 9 * k, 9 * k);
  frame(cursor, 3);
}

// The slot at a column and a row of dots of tiles without gaps.
function slotOfDot(table, x, y) {
  const bucket = order[table][SIDE[table] * (y >> 3) + (x >> 3)];
  return FIRST[table] + 64 * bucket + 8 * (y & 7) + (x & 7);
}

// The slot under the pointer, or null.
function slotUnder(table, event) {
  const box = $(table).getBoundingClientRect(), size = sizeOf(table);
  const x = Math.floor((event.clientX - box.left) / scale[table]);
  const y = Math.floor((event.clientY - box.top) / scale[table]);
  if (x < 0 || y < 0 || x >= size || y >= size || x % 9 === 8 || y % 9 === 8) return null;
  return slotOfDot(table, x - Math.floor(x / 9), y - Math.floor(y / 9));
}

function moveTo(i) {
  if (cursor === i) return;
  cursor = i;
  for (const table of TABLES) paint(table);
  showSlot();
}

const STEPS = {
  ArrowLeft: [-1, 0],
  ArrowRight: [1, 0],
  ArrowUp: [0, -1],
  ArrowDown: [0, 1],
  PageUp: [0, -8],
  PageDown: [0, 8]
};

// The next lit slot in use, by tiles as they are shown.
function nextUsed(table, from, way) {
  const first = FIRST[table], count = END[table] - first;
  const place = i => 64 * tileOf[table][(i - first) >> 6] + (i & 63);
  const start = from === null ? (way > 0 ? count - 1 : 0) : place(from);
  for (let k = 1; k <= count; k++) {
    const next = (start + way * k + count) % count;
    const i = first + 64 * order[table][next >> 6] + (next & 63);
    if (data.slots[i] >= 0 && isLit(i)) return i;
  }
  return from;
}

// The slot that is a step away from this one, around the edges of the map.
function stepFrom(table, i, [dx, dy]) {
  const wide = 8 * SIDE[table], tile = tileOf[table][(i - FIRST[table]) >> 6];
  const x = 8 * (tile % SIDE[table]) + (i & 7) + dx;
  const y = 8 * Math.floor(tile / SIDE[table]) + ((i & 63) >> 3) + dy;
  return slotOfDot(table, (x + wide) % wide, (y + wide) % wide);
}

// The slot that a key of a map leads to; null for another key.
function slotOfKey(table, from, key) {
  const end = 8 * SIDE[table] - 1;
  if (key === "n" || key === "p") return nextUsed(table, from, key === "n" ? 1 : -1);
  if (key === "Home" || STEPS[key] && from === null) return slotOfDot(table, 0, 0);
  if (key === "End") return slotOfDot(table, end, end);
  return STEPS[key] ? stepFrom(table, from, STEPS[key]) : null;
}

function onMapKey(table, event) {
  if (event.ctrlKey || event.metaKey || event.altKey) return;
  const isHere = cursor !== null && cursor >= FIRST[table] && cursor < END[table];
  const next = slotOfKey(table, isHere ? cursor : null, event.key);
  if (next !== null) moveTo(next);
  else if (event.key === "Enter" || event.key === " ") chooseGroup();
  else return;
  event.preventDefault();
}

// Lights up the group of the slot under the cursor.
function chooseGroup() {
  if (cursor === null || !data || data.slots[cursor] < 0) return;
  if (!highlight || highlight.kind === "group")
    setHighlight({
      kind: "group", by: $("by").value, name: groupName(data, $("by").value, data.slots[cursor])
    });
}

function onPointer(table, event) {
  const i = data && slotUnder(table, event);
  if (i !== null && data) moveTo(i);
}
