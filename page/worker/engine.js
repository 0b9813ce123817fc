// The engine: the program as a module of WebAssembly without an import. Every job has a fresh
// instance, so none leaves memory behind, and one that stops takes nothing with it.
"use strict";
const NUMBERS = {
  "peers.dat": 0,
  "asmap.dat": 2,
  "asmap.old": 4,
  "prefixes.txt": 5,
  "banlist.json": 6
};
// The columns of an opened file, by their numbers.
const COLUMNS = [
  ["slots", Int32Array], ["port", Uint16Array], ["network", Uint8Array], ["table", Uint8Array],
  ["time", Uint32Array], ["services", BigUint64Array], ["success", Uint32Array],
  ["tries", Uint32Array], ["group", Uint32Array], ["sourceGroup", Uint32Array],
  ["names", Uint8Array]
];
const TEXTS = ["name", "form", "source", "sourceForm"];
const encoder = new TextEncoder(), decoder = new TextDecoder();
let wasm = null;

const hexOf = bytes => Array.from(bytes, b => b.toString(16).padStart(2, "0")).join("");

// The program has refused its files, arguments or log. The message is what it says on standard
// error.
class Refused extends Error {
  constructor(status, text) {
    super(text);
    this.status = status;
  }
}

class Engine {
  constructor() {
    this.exports = new WebAssembly.Instance(wasm, {}).exports;
    const words = crypto.getRandomValues(new BigUint64Array(2));
    this.exports.set_hash_key(words[0], words[1]);
  }

  // Copies bytes into room of the module's own.
  give(bytes) {
    const at = this.exports.room(bytes.length);
    if (!at) throw new Refused(12, "addrman: out of memory");
    new Uint8Array(this.exports.memory.buffer, at >>> 0, bytes.length).set(bytes);
    return [at, bytes.length];
  }

  bytesAt(at, length) { return new Uint8Array(this.exports.memory.buffer, at >>> 0, length); }

  // Puts these files into the folder, in the place of all that are there.
  setFiles(files) {
    this.exports.clear_files();
    for (const [name, bytes] of Object.entries(files || {}))
      if (bytes) this.exports.set_file(NUMBERS[name], ...this.give(bytes));
  }

  // The lines for standard error.
  errors() {
    const x = this.exports;
    return decoder.decode(this.bytesAt(x.errors_at(), x.errors_len()));
  }

  // Runs the program over these files, and returns its exit code and its lines for standard error.
  run(words, files, log) {
    const x = this.exports;
    this.setFiles(files);
    for (const word of words) x.add_argument(...this.give(encoder.encode(word)));
    if (log) x.set_log(...this.give(typeof log === "string" ? encoder.encode(log) : log));
    const status = x.run();
    return { status, errors: this.errors() };
  }

  // The output of a run that has to succeed, as text, and what standard error says besides.
  output(words, files, log) {
    const { status, errors } = this.run(words, files, log);
    if (status) throw new Refused(status, errors.trim());
    const x = this.exports, text = decoder.decode(this.bytesAt(x.output_at(), x.output_len()));
    x.clear_output();
    return { text, errors };
  }

  text(words, files, log) { return this.output(words, files, log).text; }

  // A file as the last run left it.
  file(name) {
    const x = this.exports, number = NUMBERS[name];
    return x.has_file(number) ? this.bytesAt(x.file_at(number), x.file_len(number)).slice() : null;
  }

  // A column of the file that was opened, as bytes of its own.
  column(number) {
    const x = this.exports;
    return this.bytesAt(x.column_at(number), x.column_len(number)).slice();
  }

  // The columns of numbers by their names.
  columns() {
    return Object.fromEntries(
      COLUMNS.map(([name, kind], number) => [name, new kind(this.column(number).buffer)])
    );
  }

  // The columns of texts by their names: bytes with a line for each record.
  texts() {
    if (!this.exports.write_texts()) throw new Refused(12, "addrman: out of memory");
    return Object.fromEntries(
      TEXTS.map((name, k) => [name, this.column(COLUMNS.length + k)])
    );
  }
}

function compiled(engine, rows) {
  engine.text(["compile"], { "prefixes.txt": encoder.encode(rows) });
  return engine.file("asmap.dat");
}
