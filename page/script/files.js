// The files that were given: those with peers by their dates, an asmap and a list of bans. `attack`
// is there while the files are those of a made attack.
let snaps = [], asmap = null, bans = null, attack = null;
const MAGICS = ["f9beb4d9", "0b110907", "1c163f28", "0a03cf40", "fabfb5da"];
const MAX_SIZE = 256e6;
// Whether an asmap's checksum is that which Bitcoin Core takes, as with the option --core.
const isCore = () => $("core").checked;

// What a JSON text of a node is, by the first of its member names.
function kindOfJson(bytes) {
  const start = new TextDecoder().decode(bytes.subarray(0, 4096));
  const found = /"([a-z_]+)"\s*:/.exec(start);
  return found && found[1] === "banned_nets" ? "bans" : "json";
}

// What a file is, by its name or its first bytes.
function kindOf(path, bytes) {
  const name = fileName(path.toLowerCase());
  const first = bytes.find(byte => byte > 32);
  if (name.includes("banlist")) return "bans";
  if (name.includes("asmap")) return "asmap";
  if (name.endsWith(".dat")) return "peers";
  if (first === 123) return kindOfJson(bytes);
  const magic = Array.from(bytes.subarray(0, 4), b => b.toString(16).padStart(2, "0")).join("");
  return MAGICS.includes(magic) || !name.endsWith(".json") ? "peers" : "json";
}

const DATE = /(20\d\d)[-_.]?([01]\d)[-_.]?([0-3]\d)(?:[T_ -]?([0-2]\d)[-_.:h]?([0-5]\d))?/;

// The date of a file in milliseconds: one in its path, or when it was changed.
function dateOf(path, changed) {
  const found = path.match(DATE);
  if (!found) return changed;
  const [, year, month, day, hour = 0, minute = 0] = found.map(Number);
  const time = Date.UTC(year, month - 1, day, hour || 0, minute || 0);
  return Number.isNaN(time) ? changed : time;
}

const isOfNode = ({ path }) => /peers|asmap|banlist|rawaddrman/i.test(fileName(path));

// The files of a folder that was dropped, as Firefox gives it.
async function filesOfEntry(entry) {
  if (entry.isFile) {
    const file = await new Promise((done, fail) => entry.file(done, fail));
    return [{ file, path: entry.fullPath }];
  }
  const reader = entry.createReader(), all = [];
  for (;;) {
    const some = await new Promise((done, fail) => reader.readEntries(done, fail));
    if (!some.length) break;
    for (const child of some) all.push(...await filesOfEntry(child));
  }
  return all.filter(isOfNode);
}

// The same as Chromium gives it: a page from a disk may read no entries there.
async function filesOfHandle(handle, path) {
  if (handle.kind === "file") return [{ file: await handle.getFile(), path }];
  const all = [];
  for await (const child of handle.values())
    all.push(...await filesOfHandle(child, `${path}/${child.name}`));
  return all.filter(isOfNode);
}

// The files of what was dropped. A browser tells of folders only until the event ends.
async function filesDropped({ items, files }) {
  const entries = [...items].map(item => item.webkitGetAsEntry?.()).filter(Boolean);
  if (!entries.some(entry => entry.isDirectory))
    return [...files].map(file => ({ file, path: file.name }));
  const handles = [...items].map(item => item.getAsFileSystemHandle?.()).filter(Boolean);
  const found = handles.length ?
    (await Promise.all(handles)).map(handle => filesOfHandle(handle, handle.name)) :
    entries.map(filesOfEntry);
  return (await Promise.all(found)).flat();
}

// Reads the files, and tells those of peers from an asmap and a list of bans.
async function sorted(given) {
  const found = { peers: [], asmap: null, bans: null };
  for (const { file, path } of given) {
    const bytes = new Uint8Array(await file.arrayBuffer()), kind = kindOf(path, bytes);
    const isJson = kind === "json", date = dateOf(path, file.lastModified);
    const one = { name: path.replace(/^\//, ""), bytes, isJson, date };
    if (kind === "asmap" || kind === "bans") found[kind] = one;
    else found.peers.push(one);
  }
  found.peers.sort((a, b) => a.date - b.date || (a.name < b.name ? -1 : 1));
  return found;
}

// Takes the files, and shows the newest one with peers.
async function take(given) {
  const large = given.find(({ file }) => file.size > MAX_SIZE);
  if (large) return fail(`${large.path}: too large for a file of a node`);
  setState("busy");
  const found = await sorted(given);
  stop();
  if (attack) {
    attack = null;
    snaps = [];
    asmap = bans = null;
  }
  asmap = found.asmap || asmap;
  bans = found.bans || bans;
  if (found.asmap) for (const snap of snaps) snap.view = null;
  if (found.peers.length) {
    snaps = found.peers;
    at = snaps.length - 1;
    highlight = cursor = matched = setMask = setShare = null;
  }
  if (snaps.length) return show(at);
  const kept = joined([asmap, bans].filter(Boolean), file => `${fileName(file.name)} is kept. `);
  status(kept + "Now drop peers.dat.");
  setState("ready");
}

async function onDrop(event) {
  event.preventDefault();
  document.body.classList.remove("over");
  try {
    const given = await filesDropped(event.dataTransfer);
    if (given.length) await take(given);
    else fail("There is no file of a node in it: peers.dat, asmap.dat or banlist.json.");
  } catch (error) { fail(error.message); }
}
