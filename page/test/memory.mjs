// memory.mjs ENGINE.wasm: what the engine of the page does where memory runs out.
//
// Opens a file of some thousand peers, and hands it to commands, with ever more memory that a
// module may have. Each run has to end with the output that it has with much memory; with code 12,
// or with code 8 where there is no room for the output; or by a trap, which ends the module's
// instance and which the page reports. Ends with status 1 if one does anything else, or if none was
// done or refused.
import {spawnSync} from "child_process";
import fs from "fs";
import {fileURLToPath} from "url";

const REFUSED = [8, 12];
const COMMANDS = ["raw", "show", "groups", "risk source", "picture"];
const [wasm, given] = process.argv.slice(2);
const module = new WebAssembly.Module(fs.readFileSync(wasm));

// An instance, and how bytes are given to it.
function instance() {
  const x = new WebAssembly.Instance(module, {}).exports;
  const give = bytes => {
    const at = x.room(bytes.length);
    if (!at) throw new RangeError("no room");
    new Uint8Array(x.memory.buffer, at >>> 0, bytes.length).set(bytes);
    return [at, bytes.length];
  };
  return { x, give };
}

// The exit code of a run, and what it leaves: its output, or a file.
function run(words, files, log = "", name = null) {
  const { x, give } = instance();
  for (const [number, bytes] of files) x.set_file(number, ...give(bytes));
  for (const word of words) x.add_argument(...give(Buffer.from(word)));
  x.set_log(...give(Buffer.from(log)));
  const status = x.run();
  const [at, length] = name === null ? [x.output_at(), x.output_len()] :
                                       [x.file_at(name), x.file_len(name)];
  return [status, Buffer.from(new Uint8Array(x.memory.buffer, at >>> 0, length))];
}

// The columns of a file as one list of bytes; empty if it cannot be opened.
function columns(peers) {
  const { x, give } = instance();
  x.set_file(0, ...give(peers));
  if (!x.open_peers(0) || !x.write_texts()) return [12, Buffer.alloc(0)];
  const parts = Array.from({ length: 15 }, (_, column) =>
    new Uint8Array(x.memory.buffer, x.column_at(column) >>> 0, x.column_len(column)).slice());
  return [0, Buffer.concat(parts)];
}

// How each run ends, with the memory that this process may have.
function ends(peers) {
  const told = COMMANDS.map(words => () => run(words.split(" "), [[0, peers]]));
  return [...told, () => columns(peers)].map(work => {
    try {
      const [status, bytes] = work();
      return [status, bytes.toString("base64")];
    } catch (error) {
      if (error instanceof WebAssembly.RuntimeError || error instanceof RangeError) return ["stop"];
      throw error;
    }
  });
}

if (given) {
  process.stdout.write(JSON.stringify(ends(fs.readFileSync(given))));
} else {
  const [, log] = run(["gen", "5", "4000"], []);
  const key = ["--key", "0".repeat(64)];
  const [, peers] = run(["replay", ...key], [], Buffer.concat([log, Buffer.from("save\n")]), 0);
  const path = fs.mkdtempSync("/tmp/page-memory-") + "/peers.dat", wanted = ends(peers);
  const counts = { done: 0, refused: 0, stopped: 0, wrong: 0 };
  fs.writeFileSync(path, peers);
  for (let pages = 20; pages < 200; pages += 6) {
    const words = [`--wasm-max-mem-pages=${pages}`, fileURLToPath(import.meta.url), wasm, path];
    const { status, stdout } = spawnSync(process.execPath, words, { maxBuffer: 1 << 30 });
    // With less than the module begins with there is no instance.
    if (status) continue;
    JSON.parse(stdout).forEach(([code, text], i) => {
      if (code === "stop") counts.stopped++;
      else if (REFUSED.includes(code)) counts.refused++;
      else if (code === 0 && text === wanted[i][1]) counts.done++;
      else counts.wrong++;
    });
  }
  fs.rmSync(path.replace("/peers.dat", ""), { recursive: true });
  console.log(Object.entries(counts).map(([name, count]) => `${count} ${name}`).join(", "));
  process.exit(counts.wrong || !counts.done || !counts.refused ? 1 : 0);
}
