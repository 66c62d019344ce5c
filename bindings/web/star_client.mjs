// The client of Nested STAR in a page or in Node: one report of one client, by the proved module star_client.wasm.
// The module imports nothing, so it can reach neither the network nor the page. docs/CLIENTS.md of the repository says what a client must ensure.

export { normalized, TRIMMED } from "./normal.mjs";

/** The bytes of a seed. */
export const SEED_BYTES = 32;
/** The most bytes of a value; it has one at least. */
export const MAX_VALUE = 64;
/** The most extra bytes of a report of version 2; one of version 1 has none. */
export const MAX_EXTRA = 255;
/** The most layers of a report, by its version. */
export const MAX_LAYERS = Object.freeze({ 1: 8, 2: 16 });
/** The greatest threshold, by the version; the least is 2 in both. */
export const MAX_THRESHOLD = Object.freeze({ 1: 512, 2: 4096 });
/** The most bytes of a report; in version 1 it has at most 1616. */
export const MAX_REPORT = 3487;
/** The most bytes of a record. */
export const MAX_RECORD = 4 + MAX_REPORT;

/** What can be wrong with a request, by its status. */
export const FAULTS = Object.freeze({
  1: "the version is neither 1 nor 2",
  2: "not 1 to 8 thresholds from 2 to 512, or in version 2 not 1 to 16 from 2 to 4096",
  3: "not one value of 1 to 64 bytes for each threshold",
  4: "more than 255 extra bytes, or any in version 1",
  5: "not 32 bytes of seed",
});

/** A request from which no report can be made. `status` is a key of FAULTS; the message names the argument and its limit. */
export class ClientError extends Error {
  constructor(status, message = FAULTS[status]) {
    super(message);
    this.name = "ClientError";
    this.status = status;
  }
}

const fail = (status, message) => { throw new ClientError(status, message); };

// Whether this engine runs modules with a 64-bit memory: a module with nothing but one is tried.
const has64 = () => WebAssembly.validate(Uint8Array.of(0, 97, 115, 109, 1, 0, 0, 0, 5, 3, 1, 4, 1));

/** The address of the module that `load()` loads in this engine. */
export const moduleAddress = () => has64() ? new URL("./star_client.wasm", import.meta.url) : new URL("./star_client_32.wasm", import.meta.url);

async function moduleHere() {
  const address = moduleAddress();
  if (address.protocol !== "file:") return fetch(address);
  return (await import("node:fs/promises")).readFile(address);
}

/**
 * The client in the module next to this file: star_client.wasm, or star_client_32.wasm if the engine has no 64-bit memory.
 * If the bytes of a module are passed, or a response with them, it loads those.
 * A good request always gives its report, so one client serves for as many reports as the page makes.
 */
export async function load(source = moduleHere()) {
  let bytes = await source;
  if (typeof Response !== "undefined" && bytes instanceof Response) {
    if (!bytes.ok) throw new Error(`the module isn't there: ${bytes.status} at ${bytes.url}`);
    bytes = await bytes.arrayBuffer();
  }
  const { instance } = await WebAssembly.instantiate(bytes, {});
  return new Client(instance.exports);
}

class Client {
  #exports;
  #at;
  #made = new Uint8Array(MAX_RECORD);

  constructor(exports) {
    // Behind the module's own data its memory is free: each argument has the room of the longest there.
    const base = Number(exports.__heap_base.value);
    this.#exports = exports;
    this.#at = { thresholds: base, written: base + 64, extra: base + 128, cells: base + 512, seed: base + 2048, out: base + 2176 };
  }

  /** The report after its length, as it is in a stream: records joined are one. The arguments are those of `report`. */
  record(request) {
    return this.#one(request, 4);
  }

  /** The bytes of a report alone. Without a seed one is drawn for it; with one, it and the client number are never to be used again. */
  report(request) {
    return this.#one(request, 0);
  }

  /** A stream: a record for each row, each with a seed of its own. It lets the page go on meanwhile, and calls `progress` then. */
  async records({ rows, extras, progress, epoch, version, thresholds }) {
    const layers = layersOf({ version, thresholds }), others = extras?.[Symbol.iterator](), seeds = new Seeds();
    number("epoch", epoch);
    if (typeof rows?.[Symbol.iterator] !== "function") throw new TypeError("rows can't be gone through; it has a list of values for each report");
    let all = new Uint8Array(1 << 16), length = 0, made = 0, told = 0, last = performance.now();
    for (const values of rows) {
      const { cells, extra } = rowOf(made, layers, values, others);
      if (all.length - length < MAX_RECORD) all = grown(all);
      length += this.#make(layers, cells, extra, epoch, 0, seeds.next(), all, length, 4);
      made += 1;
      if (performance.now() - last > SLICE) {
        progress?.(told = made);
        await new Promise((next) => setTimeout(next));
        last = performance.now();
      }
    }
    if (others && !others.next().done) fail(4, `extras has more items than there are rows, which are ${made}`);
    if (told !== made) progress?.(made);
    return all.slice(0, length);
  }

  /** How many bytes that report has; its record has four more. */
  length({ values, extra = [], ...request }) {
    const layers = layersOf(request);
    const what = this.#put(layers, cellsOf(layers, values), extraOf(layers, extra));
    const status = this.#exports.star_client_length(...what, BigInt(this.#at.written));
    if (status) fail(status);
    return this.#written();
  }

  // One report after so many bytes: none, or the four of its length.
  #one({ values, extra = [], epoch, client = 0, seed, ...request }, front) {
    const layers = layersOf(request);
    number("epoch", epoch);
    number("client", client);
    const drawn = seed === undefined ? crypto.getRandomValues(new Uint8Array(SEED_BYTES)) : bytesOf("seed", seed);
    if (drawn.length !== SEED_BYTES) fail(5, `seed has ${drawn.length} bytes; it has to have ${SEED_BYTES}`);
    return this.#made.slice(0, this.#make(layers, cellsOf(layers, values), extraOf(layers, extra), epoch, client, drawn, this.#made, 0, front));
  }

  // Makes a report, writes it after so many bytes into the target from the place on, and returns how many bytes both are.
  #make(layers, cells, extra, epoch, client, seed, target, place, front) {
    const { out, written, seed: at } = this.#at;
    const what = this.#put(layers, cells, extra);
    const memory = new Uint8Array(this.#exports.memory.buffer);
    memory.set(seed, at);
    const status = this.#exports.star_client_report(...what, epoch, BigInt(at), BigInt(SEED_BYTES), client,
      BigInt(out), BigInt(MAX_REPORT), BigInt(written));
    if (status) fail(status);
    const length = this.#written();
    if (front) target.set([0, 0, length >> 8, length & 255], place);
    target.set(memory.subarray(out, out + length), place + front);
    memory.fill(0, at, out + length);
    return front + length;
  }

  // Puts the arguments of both calls into the module's memory, and returns where they are.
  #put({ version, thresholds }, cells, extra) {
    const at = this.#at, view = new DataView(this.#exports.memory.buffer), memory = new Uint8Array(this.#exports.memory.buffer);
    thresholds.forEach((k, i) => view.setUint16(at.thresholds + 2 * i, k, true));
    memory.set(extra, at.extra);
    memory.set(cells, at.cells);
    return [version, BigInt(at.cells), BigInt(cells.length), BigInt(at.thresholds), BigInt(thresholds.length),
      BigInt(at.extra), BigInt(extra.length)];
  }

  #written() {
    return Number(new DataView(this.#exports.memory.buffer).getBigUint64(this.#at.written, true));
  }
}

// Seeds for many reports, drawn 64 at a time. None is given twice.
class Seeds {
  #drawn = new Uint8Array(64 * SEED_BYTES);
  #at = this.#drawn.length;

  next() {
    if (this.#at === this.#drawn.length) {
      crypto.getRandomValues(this.#drawn);
      this.#at = 0;
    }
    return this.#drawn.subarray(this.#at, this.#at += SEED_BYTES);
  }
}

// For how many milliseconds `records` works before the page goes on.
const SLICE = 30;

const isWhole = (n, most) => Number.isInteger(n) && n >= 0 && n <= most;

function number(name, n) {
  if (!isWhole(n, 2 ** 32 - 1)) throw new RangeError(`${name} is ${n}; it is a whole number from 0 to ${2 ** 32 - 1}`);
}

// A version and thresholds that fit it.
function layersOf({ version = 1, thresholds }) {
  if (version !== 1 && version !== 2) fail(1, `version is ${version}; it is 1 or 2`);
  const ks = listOf("thresholds", thresholds), most = MAX_LAYERS[version], greatest = MAX_THRESHOLD[version];
  if (!isWhole(ks.length - 1, most - 1)) fail(2, `thresholds has ${ks.length} numbers; version ${version} has 1 to ${most}`);
  ks.forEach((k, i) => {
    if (!isWhole(k, greatest) || k < 2) fail(2, `thresholds[${i}] is ${k}; in version ${version} it is a whole number from 2 to ${greatest}`);
  });
  return { version, thresholds: ks };
}

// Each value after a byte with its length.
function cellsOf({ thresholds }, values) {
  const texts = listOf("values", values).map((value, i) => bytesOf(`values[${i}]`, value));
  if (texts.length !== thresholds.length) fail(3, `values has ${texts.length} items; thresholds has ${thresholds.length}, and each needs one`);
  const cells = new Uint8Array(texts.reduce((sum, text) => sum + 1 + text.length, 0));
  let at = 0;
  texts.forEach((text, i) => {
    if (!isWhole(text.length - 1, MAX_VALUE - 1)) fail(3, `values[${i}] has ${text.length} bytes; a value has 1 to ${MAX_VALUE}`);
    cells[at] = text.length;
    cells.set(text, at + 1);
    at += 1 + text.length;
  });
  return cells;
}

function extraOf({ version }, extra) {
  const bytes = bytesOf("extra", extra), most = version === 2 ? MAX_EXTRA : 0;
  if (bytes.length > most) fail(4, `extra has ${bytes.length} bytes; version ${version} has ${most ? `at most ${most}` : "none"}`);
  return bytes;
}

function listOf(name, items) {
  if (typeof items === "string" || isBytes(items) || typeof items?.[Symbol.iterator] !== "function") {
    throw new TypeError(`${name} is ${items === undefined ? "left out" : "no list"}; it is a list with an item for each layer`);
  }
  return [...items];
}

const utf8 = new TextEncoder();

// Also one of another frame or realm, which `instanceof` doesn't know.
const isBytes = (value) => Object.prototype.toString.call(value) === "[object Uint8Array]";

function bytesOf(name, value) {
  if (typeof value === "string") {
    if (/\p{Surrogate}/u.test(value)) fail(3, `${name} has half of a surrogate pair, which UTF-8 can't spell`);
    return utf8.encode(value);
  }
  if (isBytes(value)) return value;
  if (Array.isArray(value) && value.every((byte) => isWhole(byte, 255))) return Uint8Array.from(value);
  throw new TypeError(`${name} is neither a text, nor a Uint8Array, nor an array of numbers from 0 to 255`);
}

// The cells and extra bytes of a row; a fault of them names it.
function rowOf(index, layers, values, extras) {
  try {
    const next = extras ? extras.next() : { value: [] };
    if (next.done) fail(4, "extras has no item for this row");
    return { cells: cellsOf(layers, values), extra: extraOf(layers, next.value) };
  } catch (error) {
    if (error instanceof ClientError || error instanceof TypeError) error.message = `row ${index}: ${error.message}`;
    throw error;
  }
}

function grown(bytes) {
  const more = new Uint8Array(2 * bytes.length);
  more.set(bytes);
  return more;
}
