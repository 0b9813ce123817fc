// Both tables of a file as columns: which record is in which slot, and what is known of each
// record. And what commands of the program say of the file.
const CHAINS = {
  f9beb4d9: "main",
  "0b110907": "test",
  "1c163f28": "testnet4",
  "0a03cf40": "signet",
  fabfb5da: "regtest",
};
const NEW_SLOTS = 65536, CELLS = 81920;

// The option for the chain of peers.dat, by its first bytes. A signet of one's own has others; of
// what cannot be read that way either the program speaks as of a file of the main chain.
function chainOf(peers) {
  const magic = hexOf(peers.subarray(0, 4)), chain = CHAINS[magic];
  if (chain || peers.length < 4) return ["--net", chain || "main"];
  return ["--magic", magic];
}

// The arguments of a command that reads peers.dat; `--core` comes first among the options.
function wordsOf([command, ...rest], files, isCore) {
  return [command, ...isCore ? ["--core"] : [], ...rest, ...chainOf(files["peers.dat"])];
}

// Opens peers.dat as columns, and returns its chain. If the program refuses a file, the error is
// what it says.
function openPeers(engine, files, isCore) {
  const [option, chain] = chainOf(files["peers.dat"]);
  engine.setFiles(files);
  if (engine.exports.open_peers(isCore)) return chain;
  engine.text(["info", "--net", option === "--net" ? chain : "main"], files);
  throw new Refused(12, "addrman: out of memory");
}

// Opens what getrawaddrman printed.
function openRaw(engine, json, files) {
  engine.setFiles(files);
  engine.exports.set_log(...engine.give(json));
  if (engine.exports.open_raw()) return null;
  const errors = engine.errors();
  if (!errors) engine.text(["check"], files);
  throw new Refused(4, errors);
}

// Tells of the tables as soon as they are open, with all that can be drawn; returns shares of picks
// and the texts of addresses.
function view({ peers, json, asmap, isCore }, tell) {
  const engine = new Engine(), files = { "peers.dat": peers, "asmap.dat": asmap };
  const chain = json ? openRaw(engine, json, files) : openPeers(engine, files, isCore);
  const columns = engine.columns();
  tell({ ...columns, names: decoder.decode(columns.names), chain });
  return { share: json ? null : sharesOf(columns), texts: engine.texts() };
}

// The names of a group's counts in `groups`.
const COUNTS = ["new_slots", "new_buckets", "new_records", "tried_records"];

// Whether `groups` of the program has the same rows with the same counts, in whatever order.
function isSameCounts(rows, printed) {
  const textOf = row => ["group", ...COUNTS].map(name => row[name]).join();
  const mine = rows.map(textOf).sort(), theirs = printed.map(textOf).sort();
  return mine.length === theirs.length && mine.every((text, i) => text === theirs[i]);
}

// Whether the program counts the groups of a file so.
function agrees({ peers, asmap, isCore, rows }) {
  const engine = new Engine(), files = { "peers.dat": peers, "asmap.dat": asmap };
  const printed = engine.text(wordsOf(["groups"], files, isCore), files);
  return isSameCounts(rows, JSON.parse(printed).groups);
}

const LINE = /^\w+ (.*): picks ([\d.]+) % new ([\d.]+) % tried ([\d.]+) %$/;

const millionths = word => Number(word.replace(".", ""));

// What `risk` prints: of each group the part of the picks, of those from the new table and of those
// from the tried one, in millionths; and what standard error says besides.
function risk({ peers, asmap, isCore, by }) {
  const engine = new Engine(), files = { "peers.dat": peers, "asmap.dat": asmap };
  const { text, errors } = engine.output(wordsOf(["risk", by], files, isCore), files);
  const rows = text.split("\n").map(line => LINE.exec(line)).filter(Boolean);
  const shares =
    rows.map(([, group, ...words]) => [group, ...words.map(millionths)]);
  return { shares, errors };
}

const UNION = /^union: picks ([\d.]+) % /m, TEN = /^all ten at most ([\d.]+) %$/m;

// What `risk -` prints of all these subnets and AS numbers together, in millionths: `union`, the
// part of the picks, and `ten`, that of restarts all of whose ten connections are theirs, if the
// program says it; null if one of them is no subnet of its.
function riskOfSets({ peers, asmap, isCore, sets }) {
  const engine = new Engine(), files = { "peers.dat": peers, "asmap.dat": asmap };
  try {
    const { text } =
      engine.output(wordsOf(["risk", "-"], files, isCore), files, sets.join("\n"));
    const [union, ten] = [UNION, TEN].map(line => line.exec(text));
    return { union: millionths(union[1]), ten: ten && millionths(ten[1]) };
  } catch (error) {
    if (error instanceof Refused && error.status === 3) return null;
    throw error;
  }
}

// What `lookup -` says of these addresses: an AS number each.
function numbersOf(engine, forms, asmap) {
  let text;
  try {
    text = engine.text(["lookup", "-"], { "asmap.dat": asmap }, forms.join(":0\n") + ":0\n");
  } catch (error) {
    const line = /line (\d+)/.exec(error.message);
    if (!line || !(error instanceof Refused)) throw error;
    throw new Refused(error.status, `${forms[line[1] - 1]} is no address`);
  }
  return Array.from(text.matchAll(/^asn (\d+)/gm), found => Number(found[1]));
}

// Which of these addresses the rows of prefixes cover.
function covered({ forms, rows }) {
  const engine = new Engine(), asmap = compiled(engine, rows);
  const numbers = forms.length ? numbersOf(engine, forms, asmap) : [];
  return Uint8Array.from(numbers, number => number ? 1 : 0);
}

// One output of the program as text.
const output = ({ words, files }) => new Engine().text(words, files);

// The same of a command that takes the options of peers.dat, and other arguments after them.
function outputOfPeers({ words, files, isCore, more }) {
  return new Engine().text([...wordsOf(words, files, isCore), ...(more || [])], files);
}
