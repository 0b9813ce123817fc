// Groups: their list, what is chosen among them, and what changed of them between two files.
const MAX_ROWS = 200;

// What `risk` is asked for, by what is listed.
const RISKS = {
  placed: ["source", "peer"],
  source: ["source"],
  group: ["peer"],
  network: ["network"]
};

const isChosenGroup = name => !!highlight && highlight.kind === "group" &&
  highlight.name === name && highlight.by === $("by").value;

// The counts of all groups: of slots and buckets of the new table, and of records of both.
function rowsBy(view, by) {
  if (view.rows[by]) return view.rows[by];
  const groupOf = GROUPINGS[by], names = namesBy(view, by), found = new Map();
  const rowOf = group => {
    const name = names[group];
    if (!found.has(name))
      found.set(name, {
        group: name, new_slots: 0, new_buckets: 0, new_records: 0, tried_records: 0
      });
    return found.get(name);
  };
  const byNumber = Array(names.length).fill(null), last = new Map();
  const rowAt = group => byNumber[group] ||= rowOf(group);
  for (let i = 0; i < NEW_SLOTS; i++) {
    const r = view.slots[i];
    if (r < 0) continue;
    const row = rowAt(groupOf(view, r));
    row.new_slots++;
    if (last.get(row) !== i >> 6) row.new_buckets++;
    last.set(row, i >> 6);
  }
  for (let r = 0; r < view.count; r++)
    rowAt(groupOf(view, r))[view.table[r] ? "tried_records" : "new_records"]++;
  return view.rows[by] = [...found.values()];
}

// What `risk` calls a group of the list.
const riskName = name => name === NETWORKS[0] ? "not routable" : name;

// The part of the picks that falls to a group, at most, in millionths; undefined if that is not
// known. A pick is of one of the two tables, each as likely if both have records. The group that
// places a record is the source's in the new table, and the peer's in the tried one.
function shareOf(view, by, name) {
  const [first, second] = RISKS[by].map(word => view.shares[word]);
  if (!first || by === "placed" && !second) return undefined;
  if (by !== "placed") return (first.get(riskName(name)) || [0])[0];
  const [, ofNew] = first.get(name) || [0, 0, 0], [, , ofTried] = second.get(name) || [0, 0, 0];
  if (view.used.new && view.used.tried) return Math.ceil((ofNew + ofTried) / 2);
  return view.used.new ? ofNew : ofTried;
}

// The rows of the list with their shares, the largest share first; by slots, where these are not
// known. They are kept until more shares are.
function listedRows() {
  const by = $("by").value, { listed } = data;
  if (listed[by]) return listed[by];
  const found = rowsBy(data, by).map(row => ({ ...row, share: shareOf(data, by, row.group) }));
  return listed[by] = found.sort((a, b) => (b.share || 0) - (a.share || 0) || bySlots(a, b));
}

const millionthsText = share => share === undefined ? "…" : (share / 10000).toFixed(4) + " %";

// The row of a group. Its bar has the colour that the group has in the maps.
function groupRow(row, most, paint) {
  const isOn = isChosenGroup(row.group), name = escape(row.group), slots = slotsOf(row);
  const wide = (60 * slots / most).toFixed(1), whole = data.used.new + data.used.tried;
  const bar = `<i class="share" style="width:${wide}px;background:var(${paint})"></i>`;
  return [
    `<tr class="${isOn ? "on" : ""}"><th scope="row">`,
    `<button type="button" data-group="${name}" aria-pressed="${isOn}">${name}</button></th>`,
    data.chain ? numberCell(millionthsText(row.share)) : "",
    `<td>${bar}${percent(slots, whole)}</td>`,
    ...[row.new_slots, row.new_buckets, row.new_records, row.tried_records].map(numberCell),
    "</tr>",
  ].join("");
}

// The rows that are in the list, as long as nothing else has changed them.
let shownGroups = "";

function showGroups() {
  if (!data.hasTexts) return;
  const part = $("filter").value.trim().toLowerCase(), by = $("by").value, rows = listedRows();
  const all = part ? rows.filter(row => row.group.toLowerCase().includes(part)) : rows;
  const most = rows.reduce((max, row) => Math.max(max, slotsOf(row)), 1);
  const isSame = $("mode").value === by;
  const paints = new Map(isSame ? classes.list.map(c => [c.name, c.paint]) : []);
  const shown = all.slice(0, MAX_ROWS), left = all.length - shown.length;
  $("picks-head").hidden = !data.chain;
  const texts = joined(shown, row => groupRow(row, most, paints.get(row.group) || "--other"));
  if (texts !== shownGroups) $("groups").innerHTML = shownGroups = texts;
  $("more").textContent = "";
  if (left) $("more").textContent = `${number(left)} more groups: type a part of a name above.`;
  if (!all.length) $("more").textContent = "No group has this in its name.";
}

// Chooses what is lit: a class of the colours, a group, or what a search found. The same again
// chooses all.
function setHighlight(next) {
  const isSame = highlight && next && next.kind !== "search" && highlight.kind === next.kind &&
    highlight.name === next.name && highlight.by === next.by && highlight.index === next.index;
  highlight = isSame ? null : next;
  if (!highlight || highlight.kind !== "search") {
    matched = null;
    $("search").value = "";
    $("hits").innerHTML = "";
  }
  showKey();
  for (const button of $("groups").querySelectorAll("button")) {
    const isOn = isChosenGroup(button.dataset.group);
    button.setAttribute("aria-pressed", isOn);
    button.closest("tr").classList.toggle("on", isOn);
  }
  shownGroups = "";
  firstPeer = 0;
  showPeers();
  drawMaps();
}

const keyOf = (view, r) => view.form[r] + ":" + view.port[r];

// How many peers of each group came, went, moved to the tried table and back, from one view to
// another.
function changesOf(before, now) {
  const then = new Map(before.form.map((_, r) => [keyOf(before, r), r])), rows = new Map();
  const by = $("by").value;
  const count = (name, what) => {
    if (!rows.has(name)) rows.set(name, { group: name, came: 0, went: 0, toTried: 0, toNew: 0 });
    rows.get(name)[what]++;
  };
  for (let r = 0; r < now.count; r++) {
    const key = keyOf(now, r), old = then.get(key);
    if (old === undefined) count(groupName(now, by, r), "came");
    else if (before.table[old] !== now.table[r])
      count(groupName(now, by, r), now.table[r] ? "toTried" : "toNew");
    then.delete(key);
  }
  for (const r of then.values()) count(groupName(before, by, r), "went");
  const weight = row => row.came + row.went + row.toTried + row.toNew;
  return [...rows.values()].sort((a, b) => weight(b) - weight(a) || (a.group < b.group ? -1 : 1));
}

function showChanges() {
  $("change-box").hidden = snaps.length < 2;
  if (snaps.length < 2 || !$("change-box").open) return;
  if (!data.before) {
    $("change-words").textContent = "There is no file before this one that can be read.";
    $("changes").innerHTML = "";
    return;
  }
  const rows = changesOf(data.before, data), shown = rows.slice(0, MAX_ROWS);
  const sum = what => number(rows.reduce((total, row) => total + row[what], 0));
  $("change-words").textContent = `${sum("came")} peers came, ${sum("went")} went, ` +
    `${sum("toTried")} moved to the tried table and ${sum("toNew")} back to the new one.` +
    (rows.length > MAX_ROWS ? ` Below are the ${MAX_ROWS} groups with most changes.` : "");
  $("changes").innerHTML = joined(shown, row => {
    const cells = joined([row.came, row.went, row.toTried, row.toNew], numberCell);
    return `<tr>${headCell(row.group)}${cells}</tr>`;
  });
}
