// same.mjs ENGINE.wasm PROGRAM [COUNT]: whether the engine of the page does what the program does.
//
// Hands the same arguments, input and files to both: those of examples/, COUNT generated logs with
// the files that they leave, whole, changed and cut, and two logs of 20,000 lines with saves.
// Compares exit code, output, standard error and all files that are left. Ends with status 1 at a
// difference.
import {spawnSync} from "child_process";
import fs from "fs";
import os from "os";
import path from "path";
import {fileURLToPath} from "url";

const TOP = path.join(path.dirname(fileURLToPath(import.meta.url)), "..", "..");
const NAMES = [
  "peers.dat", "peers.tmp", "asmap.dat", "asmap.tmp", "asmap.old", "prefixes.txt", "banlist.json",
  "banlist.tmp"
];
const KEY = ["--key", "0".repeat(64)];
const [wasm, program, count = "40"] = process.argv.slice(2);
const module = await WebAssembly.compile(fs.readFileSync(wasm));
const folder = fs.mkdtempSync(path.join(os.tmpdir(), "page-same-"));
let runs = 0, different = 0, most = 0;

// Runs the engine in a fresh instance.
function byEngine(words, files, log) {
  const x = new WebAssembly.Instance(module, {}).exports;
  const give = bytes => {
    const at = x.room(bytes.length);
    new Uint8Array(x.memory.buffer, at, bytes.length).set(bytes);
    return [at, bytes.length];
  };
  const bytesAt = (at, length) => Buffer.from(new Uint8Array(x.memory.buffer, at >>> 0, length));
  x.set_hash_key(12345678901234567n, 9876543210n);
  for (const [name, bytes] of Object.entries(files))
    x.set_file(NAMES.indexOf(name), ...give(bytes));
  for (const word of words) x.add_argument(...give(Buffer.from(word)));
  x.set_log(...give(Buffer.from(log)));
  const status = x.run(), left = {};
  NAMES.forEach((name, i) => {
    if (x.has_file(i)) left[name] = bytesAt(x.file_at(i), x.file_len(i));
  });
  most = Math.max(most, x.memory.buffer.byteLength);
  return {
    memory: x.memory.buffer.byteLength,
    status,
    output: bytesAt(x.output_at(), x.output_len()),
    errors: bytesAt(x.errors_at(), x.errors_len()),
    files: left
  };
}

// Runs the program in a folder with these files.
function byProgram(words, files, log) {
  for (const name of fs.readdirSync(folder)) fs.rmSync(path.join(folder, name));
  for (const [name, bytes] of Object.entries(files))
    fs.writeFileSync(path.join(folder, name), bytes);
  const done =
          spawnSync(path.resolve(program), words, { cwd: folder, input: log, maxBuffer: 1 << 30 }),
        left = {};
  for (const name of NAMES)
    if (fs.existsSync(path.join(folder, name)))
      left[name] = fs.readFileSync(path.join(folder, name));
  return { status: done.status, output: done.stdout, errors: done.stderr, files: left };
}

// Compares one run, and returns what the engine left.
function same(words, files = {}, log = "") {
  const wanted = byProgram(words, files, log);
  let found;
  try {
    found = byEngine(words, files, log);
  } catch (error) {
    found = { status: error.message, output: Buffer.alloc(0), errors: Buffer.alloc(0), files: {} };
  }
  const names = new Set([...Object.keys(wanted.files), ...Object.keys(found.files)]);
  const isSame = found.status === wanted.status && found.output.equals(wanted.output) &&
    found.errors.equals(wanted.errors) &&
    [...names].every(
      name =>
        found.files[name] && wanted.files[name] && found.files[name].equals(wanted.files[name])
    );
  runs++;
  if (!isSame) {
    different++;
    console.log(`different: ${words.join(" ")}: ${found.status} and ${wanted.status}\n  engine: ${
      found.errors}\n  program: ${wanted.errors}`);
  }
  return found;
}

function examples() {
  const read = name => fs.readFileSync(path.join(TOP, "examples", name));
  const asmap = read("asmap.dat"), peers = read("node/peers.dat");
  const files = {
    "asmap.dat": asmap,
    "asmap.old": read("asmap.old"),
    "prefixes.txt": read("prefixes.txt"),
    "peers.dat": peers,
    "banlist.json": read("node/banlist.json")
  };
  for (const name of ["all-networks.log", "every-line.log", "one-address.log", "saves.log"]) {
    same(["replay", ...KEY], {}, read(name));
    same(["replay", ...KEY], { "asmap.dat": asmap }, read(name));
    same(["replay"], { "peers.dat": peers }, read(name));
  }
  same(["opener", ...KEY], {}, read("opener.log"));
  same(["limit"], {}, read("events.log"));
  for (const text of
         ["", "compile", "check", "decompile", "diff", "diff --peers", "lookup 1.2.3.4:8333",
          "lookup -", "lookup nothing", "address 8.8.8.8", "ban 1.2.3.0/24 1700000000 1800000000",
          "unban 1.2.3.0/24", "banned 1.2.3.4:1 1700000000", "bans 1", "help", "help raw", "raw",
          "info", "groups", "risk source", "picture", "show", "raw --net test", "trial 7 20000",
          "gen 18446744073709551615 1000", "gen 1 0", "no such command"]) {
    const words = text.split(" ").filter(Boolean);
    same(words, files, "1.2.3.4:8333\n");
    same(words, {}, "1.2.3.4:8333\n");
  }
  for (const by of ["network", "source", "group", "age", "tries"])
    same(["picture", "--by", by], files);
  for (const sets of ["1.2.0.0/16\nAS6\n::/0\n", "AS6", "1.2.3.4/16\n", ""])
    same(["risk", "-"], files, sets);
  same(["picture", "--mark", "1.2.0.0/16", "AS6"], files);
}

// A log of this seed, the file that it leaves, and that file changed and cut.
function generated(seed) {
  const log = Buffer.concat([
    same(["gen", String(seed), String(200 + seed * 37 % 3000)]).output,
    Buffer.from(`save\ndump\nsample 1000 23 all @${seed}:5000\n`)
  ]);
  const asmap = fs.readFileSync(path.join(TOP, "examples", "asmap.dat")),
        with_asmap = seed % 2 ? { "asmap.dat": asmap } : {};
  const peers = same(["replay", ...KEY], with_asmap, log).files["peers.dat"];
  for (const command of ["raw", "picture", "groups", "info", "show", "risk source", "risk network"])
    same(command.split(" "), { "peers.dat": peers, ...with_asmap });
  for (let k = 0; k < 4; k++) {
    const at = (seed * 7919 + k * 104729) % peers.length, changed = Buffer.from(peers);
    changed[at] ^= 1 << k * 2;
    same(["show"], { "peers.dat": changed });
    same(["raw"], { "peers.dat": peers.subarray(0, at) });
    const map = Buffer.from(asmap);
    map[(seed * 31 + k * 17) % map.length] ^= 1 << seed % 8;
    same([k % 2 ? "check" : "decompile"], { "asmap.dat": map });
  }
}

// A log of 20,000 lines, with a save after each five hundred, of one piece or of several.
function withSaves(seed) {
  const text = same(["gen", String(seed), "20000"]).output.toString().trimEnd();
  const saves = [["save"], ["save-begin", "save-step 300", "save-step 1", "save-end"]];
  const log = text.split("\n").flatMap(
    (line, i) => i % 500 === 499 ? [line, ...saves[(i + 1) / 500 % 2]] : [line]
  );
  same(["replay", ...KEY], {}, [...log, "size", "dump", ""].join("\n"));
}

// Many saves: the folder keeps each file as it is, and nothing of what it was.
function manySaves(count) {
  const text = same(["gen", "3", "20000"]).output.toString();
  const { files, memory } = same(["replay", ...KEY], {}, text + "save\n".repeat(count));
  const all = count * files["peers.dat"].length;
  if (memory > all / 4) {
    different++;
    console.log(`${count} saves of ${all / count} bytes took ${memory} bytes of memory`);
  }
}

const imports = WebAssembly.Module.imports(module).length;
examples();
for (let seed = 1; seed <= Number(count); seed++) generated(seed);
for (const seed of [1, 2]) withSaves(seed);
manySaves(300);
fs.rmSync(folder, { recursive: true });
console.log(
  `${runs} runs, ${different} different; ${imports} imports; at most ${Math.ceil(most / 1e6)} MB`
);
process.exit(different || imports ? 1 : 0);
