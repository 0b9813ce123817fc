// The tables of one file: which is shown, and what is said of them as a whole.
let at = 0, data = null, classes = null, cursor = null;
// What is lit, the records that a search found, and those that the typed set has.
let highlight = null, matched = null, setMask = null, setShare = null;
// How often something was asked for: an answer is dropped if something else was meanwhile.
let wanted = 0;
const KEPT_VIEWS = 12;
// How long a file is shown, in milliseconds, before the program is asked for shares of picks and
// counts, while files are played one after another: longer than a step.
const CHECK_AFTER = 700;
let checking = 0;
// What can be shown before the texts of addresses are known.
const NEEDS_TEXTS = ["set", "change"];
const TEXTS = ["name", "form", "source", "sourceForm"];
const decoder = new TextDecoder();

// The slots and records that count for a group, and the order by their number.
const slotsOf = row => row.new_slots + row.tried_records;
const bySlots = (a, b) => slotsOf(b) - slotsOf(a) || (a.group < b.group ? -1 : 1);
const linesOf = text => text.split("\n").slice(0, -1);

// The view of a file with what is known as soon as its tables are open.
function viewFrom(told, snap, map) {
  const found = {
    ...told,
    names: linesOf(told.names),
    peers: snap.bytes,
    asmap: map,
    isCore: isCore(),
    count: told.port.length,
    share: null,
    rows: {},
    listed: {},
    shares: {},
    said: ""
  };
  if (!told.chain) found.tries = found.success = null;
  found.newest = found.time.reduce((a, b) => Math.max(a, b), 0);
  found.used = { new: 0, tried: 0 };
  for (const table of TABLES)
    for (let i = FIRST[table]; i < END[table]; i++)
      if (found.slots[i] >= 0) found.used[table]++;
  return found;
}

// Adds the texts of addresses, as lists that are made when somebody reads them.
function addTexts(view, texts) {
  for (const name of TEXTS) {
    let list = null;
    Object.defineProperty(view, name, { get: () => list ||= linesOf(decoder.decode(texts[name])) });
  }
  view.hasTexts = true;
}

// Asks for the view of a file. `tell` gets it once its tables are open; texts and shares are there
// when the promise is kept.
async function readView(snap, tell) {
  const map = asmap && asmap.bytes;
  let found = null;
  const rest = await ask(
    "view", { [snap.isJson ? "json" : "peers"]: snap.bytes, asmap: map, isCore: isCore() },
    told => {
      found = viewFrom(told, snap, map);
      if (tell) tell(found);
    }
  );
  found.share = rest.share;
  addTexts(found, rest.texts);
  return found;
}

async function viewOf(i, tell) {
  const snap = snaps[i];
  if (!snap.view) {
    snap.view = await readView(snap, tell);
    const kept = snaps.filter(s => s.view).sort((a, b) => b.used - a.used);
    for (const old of kept.slice(KEPT_VIEWS))
      if (old !== snap) old.view = null;
  }
  snap.used = performance.now();
  return snap.view;
}

// The view of the file that changes are counted from: of those before this one that can be read the
// last, or the first if that is chosen.
async function viewBefore(i) {
  const others = Array.from({ length: i }, (_, k) => $("since").value === "first" ? k : i - 1 - k);
  for (const k of others) {
    try {
      return await viewOf(k);
    } catch (error) {
      if (!error.isRefused) throw error;
    }
  }
  return null;
}

// Has the program count the groups of the file that is shown, and says so if it counts others.
async function checkCounts() {
  const view = data;
  if (!view || !view.chain || view.agrees !== undefined) return;
  try {
    const { peers, asmap, isCore } = view, rows = rowsBy(view, "placed");
    view.agrees = await ask("agrees", { peers, asmap, isCore, rows });
    if (view === data) showNote();
  } catch (error) { fail(error.message); }
}

// Has the program say which part of the picks falls to the groups that are listed.
async function learnShares() {
  const view = data;
  if (!view || !view.chain) return;
  try {
    for (const by of RISKS[$("by").value]) {
      if (view.shares[by]) continue;
      const { peers, asmap, isCore } = view;
      const { shares, errors } = await ask("risk", { peers, asmap, isCore, by });
      view.shares[by] = new Map(shares.map(([group, ...parts]) => [group, parts]));
      view.listed = {};
      view.said = errors.trim();
      if (view !== data) return;
    }
    showFacts();
    showNote();
    showGroups();
  } catch (error) { fail(error.message); }
}

// Shows a file.
async function show(i) {
  const turn = ++wanted, isOld = () => turn !== wanted;
  clearTimeout(checking);
  at = i;
  setState("busy");
  $("time-row").hidden = snaps.length < 2;
  $("time").max = snaps.length - 1;
  $("time").value = i;
  if (!snaps[i].view) status(`Reading ${snaps[i].name} …`);
  showTime();
  let isDrawn = false;
  try {
    const found = await viewOf(i, early => {
      if (isOld() || needsBefore() || NEEDS_TEXTS.includes($("mode").value)) return;
      data = early;
      showAll();
      isDrawn = true;
      setState("drawn");
    });
    const before = needsBefore() ? await viewBefore(i) : null;
    if (isOld()) return;
    data = found;
    data.before = before;
    if (matched) await findMatches();
    if ($("mode").value === "set") await readSet();
    if (isOld()) return;
    if (isDrawn && !NEEDS_TEXTS.includes($("mode").value)) showRest();
    else showAll();
    setState("ready");
    checking = setTimeout(() => learnShares().then(checkCounts), timer ? CHECK_AFTER : 0);
  } catch (error) {
    if (isOld()) return;
    data = null;
    $("view").hidden = true;
    isFitted = false;
    fail((snaps[i].name === "peers.dat" ? "" : snaps[i].name + "\n") + error.message);
  }
}

// Whether what is shown speaks of another file, too.
const needsBefore = () =>
  snaps.length > 1 && ($("mode").value === "change" || $("change-box").open);

function showTime() {
  const snap = snaps[at];
  const date = new Date(snap.date).toISOString().slice(0, 16).replace("T", " ");
  $("time-name").textContent = snap.label || `${fileName(snap.name)}, ${date}`;
  $("time").setAttribute("aria-valuetext", $("time-name").textContent);
}

// What was given, in words.
function givenWords() {
  const own = "Drop your own <code>peers.dat</code> here.";
  if (attack) return `<strong>A made attack.</strong> ${own}`;
  const others = [asmap, bans].filter(Boolean).map(file => fileName(file.name)).join(", ");
  const name = snaps.length > 1 ? `${snaps.length} files` : snaps[0].name;
  const more = others && ` with ${escape(others)}`;
  return `<strong>${escape(name)}</strong>${more}. Drop other files here at any time.`;
}

// Shows what the maps are not concerned with.
function showRest() {
  showFacts();
  showKey();
  showGroups();
  showChanges();
  showPeers();
  showSlot();
}

function showAll() {
  const change = $("mode").querySelector("[value=change]");
  $("error").hidden = true;
  $("view").hidden = false;
  document.body.classList.add("loaded");
  $("again").hidden = false;
  $("drop-words").innerHTML = givenWords();
  $("where").hidden = true;
  change.hidden = change.disabled = snaps.length < 2;
  $("set-bans").hidden = !bans;
  for (const id of ["save-picture", "save-list", "picture-box"]) $(id).hidden = !data.chain;
  showFacts();
  showNote();
  showMode();
  showSlot();
  showBans();
  showHours();
  showPicture();
}
