// Which slots are alike: the classes of the chosen mode, with a name, a colour and a count each.
const AGES = [
  ["under a day", 1], ["1 to 3 days", 3], ["3 to 7 days", 7], ["1 to 4 weeks", 28],
  ["4 weeks or more", Infinity]
];
const LISTED = 6;
const probe = document.createElement("i");
probe.hidden = true;
document.body.append(probe);

// The colours that were read, until the reader's setting changes.
const colours = new Map();

// A colour of the style sheet as three numbers.
function colour(name) {
  if (!colours.has(name)) {
    probe.style.color = `var(${name})`;
    colours.set(name, getComputedStyle(probe).color.match(/[\d.]+/g).slice(0, 3).map(Number));
  }
  return colours.get(name);
}

// The groups of records: that which the place depends on, which is the source's in the new table
// and the peer's in the tried one; that of the source; that of the peer; and the network.
const GROUPINGS = {
  placed: (view, r) => (view.table[r] ? view.group : view.sourceGroup)[r],
  source: (view, r) => view.sourceGroup[r],
  group: (view, r) => view.group[r],
  network: (view, r) => view.network[r],
};
const namesBy = (view, by) => by === "network" ? NETWORKS : view.names;
const groupName = (view, by, r) => namesBy(view, by)[GROUPINGS[by](view, r)];
const ageClass = (newest, time) => AGES.findIndex(([, days]) => newest - time < days * DAY);

// Whether the slot has the same peer as in the file before.
function isAsBefore(i) {
  const { before, slots } = data, now = slots[i], then = before ? before.slots[i] : -1;
  return then >= 0 && before.form[then] === data.form[now] && before.port[then] === data.port[now];
}

// The class of a slot by when its peer was reached last.
function successClass(i) {
  if (!data.success) return AGES.length + 1;
  const time = data.success[data.slots[i]];
  return time ? ageClass(data.newest, time) : AGES.length;
}

// The class of a slot by the failed tries of its peer.
function triesClass(i) {
  return data.tries ? Math.min(3, data.tries[data.slots[i]]) : 4;
}

const OTHERS = [["never", "--other"], ["not known", "--other"]];
const TRIES = [["none", "--a1"], ["1", "--a2"], ["2", "--a3"], ["3 or more", "--a4"], OTHERS[1]];
const IN_SET = [["in my prefixes", "--lit"], ["others", "--rest"]];
const CHANGES =
  [["came since", "--lit"], ["as before", "--rest"], ["free since", "--gone"]];
const NETS = NETWORKS.map((name, k) => [name, k ? `--c${k - 1}` : "--other"]);
const STEPS_OF_AGE = AGES.map(([name], k) => [name, `--a${k}`]);
const SUCCESSES = [...STEPS_OF_AGE.map(([name, paint]) => [name + " ago", paint]), ...OTHERS];

// Of each mode the classes, with name and colour, and which of them a slot in use is in.
const MODES = {
  network: () => [NETS, i => data.network[data.slots[i]]],
  age: () => [STEPS_OF_AGE, i => ageClass(data.newest, data.time[data.slots[i]])],
  success: () => [SUCCESSES, successClass],
  tries: () => [TRIES, triesClass],
  set: () => [IN_SET, i => setMask && setMask[data.slots[i]] ? 0 : 1],
  change: () => [CHANGES, i => !data.before || isAsBefore(i) ? 1 : 0],
  source: () => groupClasses("source"),
  group: () => groupClasses("group"),
  placed: () => groupClasses("placed"),
};

// The groups that come first by these counts, of as many by name, at most `LISTED`.
function firstOf(counts, names) {
  const isBefore = (a, b) =>
    counts[a] > counts[b] || counts[a] === counts[b] && names[a] < names[b];
  const most = [];
  for (let g = 0; g < counts.length; g++) {
    let k = counts[g] ? most.length : 0;
    while (k > 0 && isBefore(g, most[k - 1])) k--;
    if (counts[g]) most.splice(k, 0, g);
    if (most.length > LISTED) most.pop();
  }
  return most;
}

// The six groups with most slots, and all others.
function groupClasses(by) {
  const counts = new Uint32Array(data.names.length), groupOf = GROUPINGS[by];
  for (const r of data.slots)
    if (r >= 0) counts[groupOf(data, r)]++;
  const most = firstOf(counts, data.names), rest = counts.filter(Boolean).length - most.length;
  const rank = new Uint8Array(counts.length).fill(most.length);
  most.forEach((g, k) => { rank[g] = k; });
  const list = most.map((g, k) => [data.names[g], `--c${k}`]);
  if (rest) list.push([`${number(rest)} other group${rest === 1 ? "" : "s"}`, "--other"]);
  return [list, i => rank[groupOf(data, data.slots[i])]];
}

function classify() {
  const mode = $("mode").value, [list, pick] = MODES[mode](), of = new Int16Array(CELLS).fill(-1);
  for (let i = 0; i < CELLS; i++) {
    if (data.slots[i] >= 0) of[i] = pick(i);
    else if (mode === "change" && data.before && data.before.slots[i] >= 0) of[i] = 2;
  }
  const found = list.map(([name, paint]) => ({ name, paint, count: 0, buckets: 0, share: 0 })),
        last = Array(list.length).fill(-1);
  for (let i = 0; i < CELLS; i++)
    if (of[i] >= 0) {
      const one = found[of[i]];
      one.count++;
      if (i < NEW_SLOTS && last[of[i]] !== i >> 6) one.buckets++;
      last[of[i]] = i >> 6;
    }
  const counted = new Uint8Array(data.count);
  if (data.share)
    for (let i = 0; i < CELLS; i++) {
      const rec = data.slots[i];
      if (rec < 0 || counted[rec]) continue;
      counted[rec] = 1;
      found[of[i]].share += data.share[rec];
    }
  return { list: found, of };
}

// Whether a slot is lit: all are, unless something is chosen.
function isLit(i) {
  if (!highlight) return true;
  if (highlight.kind === "class") return classes.of[i] === highlight.index;
  if (data.slots[i] < 0) return false;
  const r = data.slots[i];
  return highlight.kind === "group" ? groupName(data, highlight.by, r) === highlight.name :
                                      matched.has(r);
}

// Whether lit slots have one colour, since their own may be too like that of the others.
const isOneColour = () => !!highlight && !["set", "change"].includes($("mode").value);

function showMode() {
  $("set-row").hidden = $("mode").value !== "set";
  classes = classify();
  if (highlight && highlight.kind === "class" && highlight.index >= classes.list.length)
    highlight = null;
  showKey();
  showGroups();
  showChanges();
  showPeers();
  drawMaps();
}

// A square in a colour of the style sheet.
const dot = paint => `<i class="dot" style="background:var(${paint})"></i>`;

// What is said of the typed set beside its number of slots.
function setText(one) {
  const buckets = `, in ${number(one.buckets)} of the 1,024 new buckets`;
  if (setShare !== null) {
    const { union, ten } = setShare, picks = `at most ${millionthsText(union)} of picks`;
    if (ten === null) return `${buckets}, ${picks}`;
    return `${buckets}, ${picks}, all ten connections of ${millionthsText(ten)} of restarts`;
  }
  return buckets + (data.share ? `, ${shareText(one.share)} of picks` : "");
}

function showKey() {
  const isSet = $("mode").value === "set";
  const chosen = highlight && highlight.kind === "class" ? highlight.index : -1;
  const items = classes.list.map((one, k) => {
    if (!one.count && !isSet) return "";
    const more = number(one.count) + (isSet && k === 0 ? setText(one) : "");
    const words = `${dot(one.paint)}${escape(one.name)} <span class="dim">${more}</span>`;
    const state = `data-index="${k}" aria-pressed="${k === chosen}"`;
    return `<li><button type="button" ${state}>${words}</button></li>`;
  });
  const free = `${dot("--empty")}free ${number(CELLS - data.used.new - data.used.tried)}`;
  $("key").innerHTML = items.join("") + `<li><span class="dim free">${free}</span></li>`;
  $("clear").hidden = !highlight;
}
