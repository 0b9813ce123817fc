// Single peers: the one under the cursor, and all of them as a table.
const PAGE = 50;
let firstPeer = 0;

function peerText(r) {
  if (!data.hasTexts) return "…";
  const name = data.name[r];
  return `${name.includes(":") ? `[${name}]` : name}:${data.port[r]}`;
}

function reachedText(r) {
  if (!data.success) return "not known";
  return data.success[r] ? when(data.success[r]) : "never";
}

const triesText = r => data.tries ? String(data.tries[r]) : "not known";
const sourceText = r => data.hasTexts ? data.source[r] : "…";

// The buckets that a record is in, by rising number.
function bucketsOf(r) {
  const table = data.table[r] ? "tried" : "new", found = [];
  for (let i = FIRST[table]; i < END[table]; i++)
    if (data.slots[i] === r) found.push((i - FIRST[table]) >> 6);
  return found;
}

// What is known of a peer, as names and values.
function peerFacts(r) {
  const buckets = bucketsOf(r), age = lengthText(data.newest - data.time[r]);
  const facts = [
    ["peer", peerText(r)],
    ["network", NETWORKS[data.network[r]]],
    ["group", data.names[data.group[r]]],
    ["source", sourceText(r)],
    ["its group", data.names[data.sourceGroup[r]]],
    ["seen", `${when(data.time[r])}, ${age} before the newest`],
    ["services", servicesText(data.services[r])],
    ["failed tries", triesText(r)],
    ["reached", reachedText(r)],
  ];
  if (buckets.length > 1) facts.push(["buckets", buckets.join(", ")]);
  if (data.share) facts.push(["picks", shareText(data.share[r])]);
  return facts;
}

function showSlot() {
  const none = '<p class="dim small">Point at a slot, or go there with the arrow keys.</p>';
  if (cursor === null || !data) {
    $("slot").innerHTML = none;
    return;
  }
  const table = cursor < NEW_SLOTS ? "new" : "tried", k = cursor - FIRST[table];
  const r = data.slots[cursor], where = `${table} table, bucket ${k >> 6}, slot ${k & 63}`;
  const facts = [["slot", where], ...(r < 0 ? [["peer", "free"]] : peerFacts(r))];
  const rows = joined(facts, ([name, value]) => `<dt>${name}</dt><dd>${escape(value)}</dd>`);
  $("slot").innerHTML = `<dl>${rows}</dl>`;
}

// The records that have a lit slot, in the order of their first slots.
function litPeers() {
  const found = new Set();
  for (let i = 0; i < CELLS; i++)
    if (data.slots[i] >= 0 && isLit(i)) found.add(data.slots[i]);
  return [...found];
}

// The row of a peer.
function peerRow(r) {
  const table = data.table[r] ? "tried" : "new", network = NETWORKS[data.network[r]];
  const group = data.names[data.group[r]], sourceGroup = data.names[data.sourceGroup[r]];
  const texts = [
    table, bucketsOf(r).join(", "), network, group, sourceText(r), sourceGroup,
    when(data.time[r]), reachedText(r)
  ];
  return `<tr>${headCell(peerText(r))}${joined(texts, textCell)}${numberCell(triesText(r))}</tr>`;
}

// The lit peers as a table, fifty at a time.
function showPeers() {
  if (!$("peers-box").open || !data) return;
  const all = litPeers();
  if (firstPeer >= all.length) firstPeer = 0;
  const last = Math.min(all.length, firstPeer + PAGE), lit = highlight ? " that are lit" : "";
  const words = `${number(firstPeer + 1)} to ${number(last)} of ${number(all.length)} peers${lit}`;
  $("peers-words").textContent = all.length ? words : "No peer.";
  $("peers-back").disabled = firstPeer === 0;
  $("peers-on").disabled = last >= all.length;
  $("peers").innerHTML = joined(all.slice(firstPeer, last), peerRow);
}

function turnPeers(way) {
  firstPeer = Math.max(0, firstPeer + way * PAGE);
  showPeers();
}
