// Peers by what is typed: a part of an address, a prefix, or a list of prefixes and AS numbers.

// The row of prefixes.txt for a word; a single address is a prefix of its whole length.
function rowOf(word) {
  const text = word.replace(/[[\]]/g, ""), whole = text.includes(":") ? "/128" : "/32";
  return `${text}${text.includes("/") ? "" : whole} AS1\n`;
}

// The program's words about a prefix, without those about the file that the page makes of it.
const prefixFault = text =>
  text.replaceAll("prefixes.txt refused", "prefixes refused").replaceAll(' AS1"', '"');

// Which of these addresses the prefixes cover, as a map.
async function coverage(forms, words) {
  const all = [...new Set(forms)], rows = joined([...new Set(words)], rowOf);
  const found = await ask("covered", { forms: all, rows });
  return new Map(all.map((form, k) => [form, !!found[k]]));
}

// Finds the peers that the search means, and returns the first of them.
async function findMatches() {
  const view = data, words = $("search").value.trim().toLowerCase();
  matched = new Set();
  if (!words || !view) return [];
  if (/\/\d+$/.test(words)) {
    const inside = await coverage(view.form, [words]);
    view.form.forEach((form, r) => {
      if (inside.get(form)) matched.add(r);
    });
  } else {
    const part = words.replace(/^\[|\]$/g, "").replace(/\](:\d+)$/, "$1");
    const findBy = fits => {
      for (let r = 0; r < view.count; r++)
        if (fits(`${view.name[r]}:${view.port[r]}`) || fits(view.form[r])) matched.add(r);
    };
    findBy(text => text.startsWith(part));
    if (!matched.size) findBy(text => text.includes(part));
  }
  return [...matched].slice(0, 12);
}

// A peer that was found, to go to.
function hitItem(r) {
  const table = `<span class="dim">${data.table[r] ? "tried" : "new"}</span>`;
  return `<li><button type="button" data-rec="${r}">${escape(peerText(r))} ${table}</button></li>`;
}

async function search() {
  if (!data || !data.hasTexts) return;
  const words = $("search").value;
  if (!words.trim()) return setHighlight(null);
  try {
    const hits = await findMatches();
    if (words !== $("search").value) return;
    $("error").hidden = true;
    const count = `${number(matched.size)} ${matched.size === 1 ? "peer" : "peers"}`;
    const said = matched.size ? count : "no peer has this in its address";
    $("hits").innerHTML = joined(hits, hitItem) + `<li class="dim">${said}</li>`;
    setHighlight({ kind: "search" });
    setState("ready");
  } catch (error) {
    matched = new Set();
    fail(prefixFault(error.message));
  }
}

function goTo(rec) {
  const i = data.slots.indexOf(rec);
  if (i >= 0) moveTo(i);
}

// The typed sets as the program reads them.
const isAs = word => /^AS\d+$/i.test(word);
const typedSets = () => $("set").value.split(/[\s,;]+/).filter(Boolean)
  .map(word => isAs(word) ? word.toUpperCase() : word.replace(/[[\]]/g, ""));

// What falls to typed peers, at most, in millionths: picks, and restarts with ten connections to
// them; null if the program does not say it.
async function shareOfSet(view, sets) {
  const { peers, asmap, isCore } = view;
  return view.chain ? ask("riskOfSets", { peers, asmap, isCore, sets }) : null;
}

// Reads the typed set, and marks the records that it has.
async function readSet() {
  const view = data, words = typedSets(), isPeer = $("set-of").value === "peer";
  const numbers = new Set(words.filter(isAs));
  const forms = isPeer ? view.form : view.sourceForm, of = isPeer ? view.group : view.sourceGroup,
        prefixes = words.filter(word => !isAs(word));
  const mask = new Uint8Array(view.count);
  setMask = mask;
  setShare = null;
  if (numbers.size && !asmap)
    throw new Error("AS numbers come from an asmap: drop asmap.dat here to use them.");
  for (let r = 0; r < mask.length; r++)
    if (numbers.has(view.names[of[r]])) mask[r] = 1;
  if (prefixes.length) {
    const inside = await coverage(forms, prefixes);
    for (let r = 0; r < mask.length; r++)
      if (inside.get(forms[r])) mask[r] = 1;
  }
  if (!isPeer || !words.length) return;
  const share = await shareOfSet(view, [...numbers, ...prefixes]);
  if (setMask === mask) setShare = share;
}

async function applySet() {
  if (!data || !data.hasTexts) return;
  const turn = ++wanted;
  setState("busy");
  try {
    await readSet();
    if (turn !== wanted) return;
    $("error").hidden = true;
    showMode();
    showPicture();
    setState("ready");
  } catch (error) {
    if (turn !== wanted) return;
    setMask = setShare = null;
    showMode();
    fail(prefixFault(error.message));
  }
}

// The bans that are in force.
async function bansNow() {
  return JSON.parse(await ask("output", {
    words: ["bans", String(Math.floor(Date.now() / 1000))],
    files: { "banlist.json": bans.bytes }
  }));
}

async function takeBans() {
  try {
    $("set").value =
      (await bansNow()).map(ban => ban.address).filter(address => address.includes("/")).join(" ");
    $("set-of").value = "peer";
    await applySet();
  } catch (error) { fail(error.message); }
}

async function showBans() {
  $("bans-box").hidden = !bans;
  if (!bans) return;
  try {
    const list = await bansNow();
    $("bans").textContent = list.length ?
      list.map(ban => `${ban.address} until ${when(ban.banned_until)}`).join("\n") :
      "No ban is in force.";
  } catch (error) {
    $("bans").textContent = error.message;
    fail(error.message);
  }
}
