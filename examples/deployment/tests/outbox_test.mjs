// The outbox of the page before a collector that fails, in Node: node outbox_test.mjs
import assert from "node:assert/strict";
import { Outbox, countsOf } from "../web/outbox.mjs";
import { epochAt, termsOf } from "../web/terms.mjs";

let now = 1.7e12, timers = [], asked = [];
Date.now = () => now;
globalThis.setTimeout = (work, wait) => { timers.push({ at: now + wait, work }); return timers.length; };
globalThis.clearTimeout = () => {};
AbortSignal.timeout = () => undefined;
const settle = async () => { for (let i = 0; i < 400; i++) await null; };

/** Lets the clock go to the next try, and waits for it. */
async function next() {
  const timer = timers.sort((a, b) => a.at - b.at).shift();
  now = Math.max(now, timer.at);
  timer.work();
  await new Promise((done) => setImmediate(done));
  await settle();
}

class Storage {
  texts = new Map(); room = Infinity; broken = false;
  #check() { if (this.broken) throw new DOMException("no", "SecurityError"); }
  getItem(name) { this.#check(); return this.texts.get(name) ?? null; }
  setItem(name, text) {
    this.#check();
    if (text.length > this.room) throw new DOMException("full", "QuotaExceededError");
    this.texts.set(name, text);
  }
}

const report = (i, size = 300) => Uint8Array.from({ length: size }, (_, at) => at < 4 ? i >> (8 * at) & 255 : 7);
function recordsOf(bytes) {
  const found = [];
  for (let at = 0; at < bytes.length;) {
    const length = new DataView(bytes.buffer).getUint32(at);
    found.push(String(bytes.slice(at + 4, at + 4 + length)));
    at += 4 + length;
  }
  return found;
}

/** A collector that gives the scripted answers first; a report whose number is `poison` makes 400. */
function collector(script = [], poison) {
  const kept = new Set(), bodies = [];
  globalThis.fetch = async (url, { body, ...options }) => {
    asked.push(options);
    const reports = recordsOf(body);
    bodies.push(reports.length);
    const said = script.shift();
    if (said instanceof Error) throw said;
    if (said) return { status: said[0], text: async () => said[1] ?? "", headers: new Map(Object.entries(said[2] ?? {})) };
    if (poison !== undefined && reports.includes(String(report(poison)))) return { status: 400, text: async () => "", headers: new Map() };
    const fresh = reports.filter((one) => !kept.has(one));
    fresh.forEach((one) => kept.add(one));
    return { status: 200, text: async () => `new=${fresh.length} known=${reports.length - fresh.length} full=0 refused=0\n`, headers: new Map() };
  };
  return { kept, bodies };
}

async function answers() {
  const foreign = [[200, "<html>"], [200, ""], [200, "new=1 known=0 full=0 refused=0"], [204], [301], [302], [401], [403], [404], [405], [408], [429],
    [500], [502], [503, "not kept: disk"], [0, ""], new TypeError("redirected, or no network")];
  for (const answer of foreign) {
    const storage = new Storage(), { kept } = collector([answer, answer, answer]), outbox = new Outbox("/v1/reports", { storage });
    for (let i = 0; i < 150; i++) await outbox.add(report(i));
    await outbox.flush();
    assert.equal(outbox.waiting, 150, String(answer));
    await next(); await next(); await next();
    assert.deepEqual([outbox.waiting, kept.size, outbox.lost, outbox.counts.new], [0, 150, 0, 150], String(answer));
  }
  return foreign.length;
}

async function pauses() {
  const first = [], storage = () => new Storage();
  for (let i = 0; i < 1000; i++) {
    timers = [];
    collector([[503, "", { "Retry-After": "60" }]]);
    const outbox = new Outbox("/v1/reports", { storage: storage() });
    await outbox.add(report(i));
    await outbox.flush();
    first.push(timers[0].at - now);
  }
  first.sort((a, b) => a - b);
  assert.ok(first[0] >= 60_000 && first[999] <= 90_000 && first[500] - first[0] > 10_000 && first[999] - first[500] > 10_000);
  timers = [];
  collector(Array(30).fill([500]));
  const outbox = new Outbox("/v1/reports", { storage: storage() });
  await outbox.add(report(1));
  await outbox.flush();
  const waits = [];
  for (let i = 0; i < 20; i++) { waits.push(timers[0].at - now); await next(); }
  assert.ok(waits[0] < 3_001 && waits[5] > 32_000 && Math.max(...waits) <= 5_400_001 && waits[19] >= 3_600_000, String(waits));
}

async function never() {
  const { kept, bodies } = collector([], 77), outbox = new Outbox("/v1/reports", { storage: new Storage() });
  for (let i = 0; i < 200; i++) await outbox.add(report(i));
  await outbox.flush();
  assert.deepEqual([outbox.waiting, kept.size, outbox.lost], [0, 199, 1]);
  assert.ok(bodies.length < 18, String(bodies));
  timers = [];
  collector([[200, "new=1 known=0 full=1 refused=0"]]);
  const full = new Outbox("/v1/reports", { storage: new Storage() });
  await full.add(report(1)); await full.add(report(2));
  await full.flush();
  assert.ok(full.waiting === 2 && timers[0].at - now >= 3_600_000);
  await next();
  assert.equal(full.waiting, 0);
}

async function storages() {
  const { kept } = collector([[503], [503], [503], [503]]);
  const broken = new Storage(), full = new Storage(), none = new Outbox("/v1/reports", { storage: null });
  broken.broken = true; full.room = 3_000;
  for (const outbox of [none, new Outbox("/v1/reports", { storage: broken })]) {
    await outbox.add(report(1)); await outbox.flush();
    assert.ok(outbox.waiting === 1 && !outbox.lasting);
  }
  const outbox = new Outbox("/v1/reports", { storage: full });
  for (let i = 10; i < 40; i++) await outbox.add(report(i));
  assert.ok(outbox.waiting === 30 && outbox.lost === 0 && !outbox.lasting);
  const stored = JSON.parse(full.getItem("star-outbox")).length;
  assert.ok(stored > 3 && stored < 10);
  await outbox.flush(); await next(); await next(); await next(); await next();
  assert.deepEqual([outbox.waiting, outbox.lasting], [0, true]);
  assert.equal(kept.size, 31);
  const odd = new Storage();
  odd.setItem("star-outbox", "[1,2");
  const after = new Outbox("/v1/reports", { storage: odd });
  await after.add(report(3));
  assert.deepEqual([after.waiting, after.lost, odd.getItem("star-outbox-unreadable")], [1, 1, "[1,2"]);
}

async function tabs() {
  const waitingFor = new Map(), held = new Set();
  Object.defineProperty(globalThis, "navigator", { configurable: true, value: { locks: { async request(name, { ifAvailable }, work) {
    if (ifAvailable && waitingFor.has(name)) return work(null);
    const before = waitingFor.get(name);
    const run = (async () => {
      await before;
      await new Promise((done) => setImmediate(done));
      held.add(name);
      try { return await work({}); } finally { held.delete(name); }
    })();
    waitingFor.set(name, run);
    try { return await run; } finally { if (waitingFor.get(name) === run) waitingFor.delete(name); }
  } } } });
  const storage = new Storage(), { kept } = collector(), write = storage.setItem;
  let unlocked = 0;
  storage.setItem = (name, text) => { unlocked += !held.has("star-outbox"); write.call(storage, name, text); };
  const [one, two] = [1, 2].map(() => new Outbox("/v1/reports", { storage, most: 500 }));
  const work = async (outbox, from) => { for (let i = 0; i < 200; i++) { await outbox.add(report(from + i)); if (i % 40 === 39) outbox.flush(); } };
  await Promise.all([work(one, 0), work(two, 1000)]);
  await one.flush(); await two.flush();
  while (one.waiting) await next();
  assert.deepEqual([kept.size, one.lost + two.lost, one.counts.new + two.counts.new], [400, 0, 400]);
  assert.equal(unlocked, 0, "the list was changed without its lock");
  delete globalThis.navigator;
}

async function bounds() {
  collector([[503]]);
  const outbox = new Outbox("/v1/reports", { storage: new Storage(), most: 10 });
  for (let i = 0; i < 25; i++) await outbox.add(report(i));
  assert.deepEqual([outbox.waiting, outbox.lost], [10, 15]);
  asked = [];
  const { kept } = collector(), leaving = new Outbox("/v1/reports", { storage: new Storage() });
  for (let i = 0; i < 150; i++) await leaving.add(report(i, 1_600));
  leaving.leave();
  await settle(); await new Promise((done) => setImmediate(done)); await settle();
  assert.deepEqual([asked.length, asked[0].keepalive, asked[0].redirect, asked[0].credentials], [1, true, "error", "omit"]);
  assert.deepEqual([kept.size, leaving.waiting], [37, 150]);
  assert.equal(countsOf("new=1 known=2 full=0 refused=3\n", 6).refused, 3);
  const others = [" new=7 known=0 full=0 refused=0", "new=7 known=0 refused=0", "new=7 known=0 full=0 refused=0\n\n", "new=07x",
    "new=6 known=0 full=0 refused=0"];
  for (const text of others) assert.equal(countsOf(text, 7), null);
  assert.deepEqual([epochAt(345_600_000), epochAt(345_599_999), epochAt(Date.UTC(2026, 10, 30))], [0, -1, 2969]);
  assert.equal(termsOf({ terms: [{ from_epoch: 3, n: 1 }, { from_epoch: 7, n: 2 }] }, 6).n, 1);
  assert.equal(termsOf({ terms: [{ from_epoch: 3 }] }, 2), undefined);
}

const foreign = await answers();
timers = []; await pauses();
timers = []; await never();
timers = []; await storages();
timers = []; await tabs();
timers = []; await bounds();
console.log(`outbox: ${foreign} foreign answers kept all, 1,000 retries spread, bad reports given up alone, storages that fail, two tabs, bounds`);
