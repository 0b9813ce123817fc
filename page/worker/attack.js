// An attack on an empty node: honest traffic, and from the fourth hour on an attacker who owns some
// groups and announces made-up addresses. Each hour is a log that the program carries out over the
// file that it saved in the hour before.
const START = 1700000000, BEGINS = 3, ATTACKER_AS = 64666, KEY = "61".padEnd(64, "0");
const HONEST_SOURCES = 400, PICKS = 1000;

// Random numbers by xorshift, so that everybody sees the same attack.
class Draws {
  constructor(seed) { this.seed = seed; }

  // A number below `count`.
  below(count) {
    this.seed ^= this.seed << 13;
    this.seed ^= this.seed >>> 17;
    this.seed ^= this.seed << 5;
    return (this.seed >>> 0) % count;
  }
}

const littleEndian = (value, count) =>
  Array.from({ length: count }, (_, i) => Math.floor(value / 256 ** i) & 255);
const sourceOf = number => [20 + number % 44, number * 29 & 255, 9, 9];

class Attack {
  constructor({ groups, hours, isLimited }) {
    Object.assign(this, { groups, hours, isLimited, draws: new Draws(7) });
    // Connections 0 to 399 are honest; the attacker has at least eight.
    this.attackers = Math.max(8, groups);
  }

  honestPeer() {
    const j = this.draws.below(9000);
    return [20 + j % 44, j * 7 >> 2 & 255, 1 + (j >> 8) % 250, 1 + j % 250];
  }

  attackPeer() {
    return [
      101 + this.draws.below(25), this.draws.below(256), this.draws.below(256),
      1 + this.draws.below(250)
    ];
  }

  addressOf(connection) {
    if (connection < HONEST_SOURCES) return sourceOf(connection).join(".");
    const i = connection - HONEST_SOURCES;
    return `77.${i % this.groups}.${Math.floor(i / this.groups)}.1`;
  }

  // An addr message that a connection sends.
  message(connection, entries) {
    const bytes =
      entries.length < 253 ? [entries.length] : [253, ...littleEndian(entries.length, 2)];
    for (const [time, peer] of entries)
      bytes.push(
        ...littleEndian(time, 4), ...littleEndian(9, 8), ...Array(10).fill(0), 255, 255, ...peer,
        8333 >> 8, 8333 & 255
      );
    const from = this.isLimited ? `from ${connection}` : `addr ${this.addressOf(connection)}`;
    return `${from} ${hexOf(bytes)} @${this.draws.below(1 << 30)}:${entries.length}\n`;
  }

  // The lines that open these connections and ask each for addresses.
  opened(first, count) {
    return Array.from({ length: count }, (_, i) => first + i).flatMap(connection => [
      `open ${connection} ${this.addressOf(connection)} limited\n`,
      `getaddr ${connection}\n`,
    ]);
  }

  // A message of so many peers, each seen at most `age` seconds before.
  announced(connection, count, now, age, peerOf) {
    const entries = Array.from({ length: count }, () => [now - this.draws.below(age), peerOf()]);
    return this.message(connection, entries);
  }

  // The lines of an hour but for those that end it.
  hour(hour) {
    const now = START + 3600 * hour, lines = [`now ${now}\n`];
    const add = (count, lineOf) => { for (let i = 0; i < count; i++) lines.push(lineOf(i)); };
    const honest = () => this.honestPeer(), made = () => this.attackPeer();
    const target = () => `${honest().join(".")}:8333`;
    const opened = (first, count) => this.isLimited ? this.opened(first, count) : [];
    if (hour === 0) lines.push(...opened(0, HONEST_SOURCES));
    if (hour === BEGINS) lines.push(...opened(HONEST_SOURCES, this.attackers));
    add(60, () => this.announced(this.draws.below(HONEST_SOURCES), 60, now, 86400, honest));
    add(hour < BEGINS ? 0 : 64, i =>
      this.announced(HONEST_SOURCES + i % this.attackers, 250, now, 600, made));
    add(120, () => `good ${target()} test\n`);
    add(60, () => `attempt ${target()} count\n`);
    lines.push("resolve\n");
    add(PICKS, () => `select any all @${this.draws.below(1 << 30)}:3000\n`);
    return lines;
  }
}

// What a log of events leaves, with as many lines.
function limited(engine, hours) {
  const left = engine.text(["limit"], {}, hours.flat().join("")).split("\n");
  let at = 0;
  return hours.map(lines => left.slice(at, at += lines.length).map(line => line + "\n"));
}

// Counts what the replies of an hour say: the picks, the slots of both tables, how many of these
// are of the attacker's groups, and the buckets of the new table that such slots are in.
function countReplies(text) {
  const found = {
    picks: 0,
    attackPicks: 0,
    newSlots: 0,
    attackSlots: 0,
    triedSlots: 0,
    attackTried: 0,
  };
  const buckets = new Set();
  for (const line of text.split("\n")) {
    const words = line.split(" ");
    if (words[0] === "one") {
      const first = parseInt(words[1], 10);
      found.picks++;
      if (first >= 101 && first < 126) found.attackPicks++;
    } else if (words[0] === "peer") {
      const where = words.at(-1), isAttacker = words[3].startsWith("77.");
      const isTried = where === "tried", list = where.split(",");
      found[isTried ? "triedSlots" : "newSlots"] += list.length;
      if (!isAttacker) continue;
      found[isTried ? "attackTried" : "attackSlots"] += list.length;
      if (!isTried) for (const bucket of list) buckets.add(bucket);
    }
  }
  return { ...found, buckets: buckets.size };
}

// The logs of the hours: those that are given, or made ones.
function logsOf(engine, asked) {
  if (asked.logs) return asked.logs;
  const made = new Attack(asked);
  const hours = Array.from({ length: asked.hours }, (_, hour) => made.hour(hour));
  return (asked.isLimited ? limited(engine, hours) : hours).map(lines => lines.join(""));
}

// Carries out an attack, and tells of each hour that is done. Returns the file, the time and the
// counts of each hour, the asmap if there is one, and the attacker's groups as prefixes.
function attack(asked, tell) {
  const engine = new Engine(), key = asked.key || KEY, begins = asked.begins ?? BEGINS;
  const rows = Array.from({ length: asked.groups }, (_, g) => `77.${g}.0.0/16`);
  const table = rows.map(row => `${row} AS${ATTACKER_AS}\n`).join("");
  const asmap = asked.isOneAs ? compiled(engine, table) : null;
  let peers = null;
  const saved = logsOf(engine, asked).map((log, hour) => {
    const files = { "peers.dat": peers, "asmap.dat": asmap };
    const replies = engine.text(["replay", "--key", key], files, log + "save\ndump\n");
    peers = engine.file("peers.dat");
    tell({ hour: hour + 1, hours: asked.hours });
    return { peers, time: START + 3600 * hour, ...countReplies(replies) };
  });
  return { saved, asmap, rows, begins };
}
