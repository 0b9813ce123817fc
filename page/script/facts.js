// What is said of a file's tables as a whole.
const fact = (value, words) => `<li><b>${escape(value)}</b>${escape(words)}</li>`;

// The peers of each network, in words.
function networksText() {
  const counts = NETWORKS.map(() => 0);
  for (const net of data.network) counts[net]++;
  const words = NETWORKS.map((name, net) => `${name} ${number(counts[net])}`);
  return words.filter((_, net) => counts[net]).join(", ") || "of no network";
}

// How many peers there are, and how much of each table is in use.
function usageFacts() {
  const { used, chain } = data, newPeers = data.table.filter(tried => !tried).length;
  const of = chain && chain !== "main" ? ` of ${chain}` : "";
  const inNew = `${number(used.new)} slots for ${number(newPeers)} peers`;
  const inTried = `${number(used.tried)} slots`;
  return [
    fact(number(data.count), `peers${of}: ${networksText()}`),
    fact(percent(used.new, NEW_SLOTS), `of the new table in use: ${inNew}`),
    fact(percent(used.tried, CELLS - NEW_SLOTS), `of the tried table in use: ${inTried}`),
  ];
}

// What the groups of the list are, in words.
const GROUP_WORDS = {
  placed: name => `that ${name} placed`,
  source: name => `that ${name} announced first`,
  group: name => `of ${name}`,
  network: name => `of ${name}`,
};

// The group with the largest share of picks; of slots, where shares are not known.
function topFact() {
  if (!data.hasTexts) return fact("…", "the groups are counted");
  const rows = listedRows(), top = rows[0], count = number(rows.length), by = $("by").value;
  if (!top) return fact("none", "no group");
  const words = `peers ${GROUP_WORDS[by](top.group)}, first of ${count}`;
  if (top.share !== undefined)
    return fact(millionthsText(top.share), `of the picks, at most, are ${words}`);
  const share = percent(slotsOf(top), data.used.new + data.used.tried);
  return fact(share, `of all slots have ${words}`);
}

// A share of the attacker's, with its counts.
const shareFact = (part, whole, words) =>
  fact(percent(part, whole), `${words}: ${number(part)} of ${number(whole)}`);

// How far the attacker came: buckets, slots and picks.
function attackFacts(snap) {
  const reached = "of the 1,024 buckets of the new table have the attacker's peers";
  return [
    fact(number(snap.buckets), `${reached}; the bound is ${number(attack.bound)}`),
    shareFact(snap.attackSlots, snap.newSlots, "of the new slots in use are the attacker's"),
    shareFact(snap.attackTried, snap.triedSlots, "of the tried slots in use are the attacker's"),
    shareFact(snap.attackPicks, snap.picks, "of this hour's picks are the attacker's peers"),
  ];
}

function showFacts() {
  const snap = snaps[at], name = snap.label || snap.name, usage = usageFacts();
  $("facts").innerHTML = (attack ? attackFacts(snap) : [...usage, topFact()]).join("");
  const words = `${number(data.used.new)} slots of the new table and ${number(data.used.tried)} ` +
    "of the tried one are in use.";
  status(`${name}: ${words}`, true);
}

const NOTES = {
  differs: "The counts of this page differ from those that the program prints. Please report this.",
  json: "What getrawaddrman prints has no tries and no last success, so there are no shares of " +
    "picks. Slots are those of the node; groups are those of the asmap, if one is here.",
};

// What the program says besides: how the asmap of the file fits the one that is here.
const saidText = said => said.replace(/^addrman: (.)/, (_, first) => first.toUpperCase());

function showNote() {
  const notes = [];
  if (data.agrees === false) notes.push(NOTES.differs);
  if (data.said) notes.push(saidText(data.said) + ".");
  if (!data.chain) notes.push(NOTES.json);
  $("note").textContent = notes.join(" ");
  $("note").hidden = !notes.length;
}
