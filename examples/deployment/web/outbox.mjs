// Sends reports, and keeps each until the collector has answered that it is kept. A report that is sent twice counts once, so whatever wasn't
// answered is sent again with the same bytes. Nothing goes along that names the visitor: no cookies, no referrer.

const BATCH = 100;                      // reports of a request
const FIRST_PAUSE = 2_000;              // milliseconds before the second try; each later pause is twice as long
const LATER = 3_600_000;                // the longest pause, and that after the answer that the epoch is full
const LEAVING = 60_000;                 // bytes that a browser takes from a page that is left

const toText = (bytes) => btoa(String.fromCharCode(...bytes));
const toBytes = (text) => Uint8Array.from(atob(text), (c) => c.charCodeAt(0));

/** The records of these reports, one after the other. */
function streamOf(texts) {
  const reports = texts.map(toBytes), stream = new Uint8Array(reports.reduce((sum, report) => sum + 4 + report.length, 0));
  let at = 0;
  for (const report of reports) {
    stream.set([0, 0, report.length >> 8, report.length & 255], at);
    stream.set(report, at + 4);
    at += 4 + report.length;
  }
  return stream;
}

/** The counts of an answer to so many reports; null if it isn't the collector's. */
export function countsOf(text, number) {
  const found = /^new=(\d{1,6}) known=(\d{1,6}) full=(\d{1,6}) refused=(\d{1,6})\n?$/.exec(text);
  if (!found) return null;
  const [fresh, known, full, refused] = found.slice(1).map(Number);
  return fresh + known + full + refused === number ? { new: fresh, known, full, refused } : null;
}

/** A storage as localStorage is, if this page may have it; null otherwise. */
function storageHere() {
  try { return globalThis.localStorage ?? null; } catch { return null; }
}

export class Outbox {
  #url; #storage; #name; #most; #changed;
  #memory = [];                         // reports that the storage didn't take
  #sending = null; #size = BATCH; #good = 0; #pause = FIRST_PAUSE; #notBefore = 0; #answered = false; #timer;

  /** What came of the reports that were sent from this page. */
  counts = { new: 0, known: 0, full: 0, refused: 0 };
  /** Reports that nobody has: pushed out by newer ones, unreadable in the storage, or never taken. */
  lost = 0;

  /** At most `most` reports wait: the oldest is given up for a new one. `changed` is called after each change. */
  constructor(url, { storage = storageHere(), name = "star-outbox", most = 200, changed = () => {} } = {}) {
    this.#url = url; this.#storage = storage; this.#name = name; this.#most = most; this.#changed = changed;
  }

  /** How many reports wait. */
  get waiting() { return this.#read().length + this.#memory.length; }

  /** Whether all that waits outlives this page. */
  get lasting() { return this.#storage !== null && this.#memory.length === 0; }

  /** Keeps a report. Send it by `flush`. */
  async add(report) {
    await this.#change((waiting) => [...waiting, toText(report)]);
  }

  /** Sends what waits, unless the collector asked for a pause; what can't be sent now is tried again by itself. */
  flush() {
    this.#sending ??= this.#locked("-send", () => this.#sendAll(), { ifAvailable: true }).finally(() => { this.#sending = null; this.#changed(); });
    return this.#sending;
  }

  /** Sends what fits while the page goes away. It stays here until a later page has an answer. */
  leave() {
    const leaving = [];
    let bytes = 0;
    for (const text of this.#all().slice(0, BATCH)) {
      bytes += 4 + toBytes(text).length;
      if (bytes > LEAVING) break;
      leaving.push(text);
    }
    const paused = this.#answered && Date.now() < this.#notBefore;      // a pause after no answer may be one that leaving itself has caused
    if (leaving.length && !paused) this.#fetch(leaving, { keepalive: true }).catch(() => {});
  }

  #all() { return [...this.#read(), ...this.#memory]; }

  #read() {
    try {
      const found = JSON.parse(this.#storage?.getItem(this.#name) ?? "[]");
      if (!Array.isArray(found) || !found.every((text) => typeof text === "string")) throw new Error("not a list of reports");
      found.forEach(atob);
      return found;
    } catch {
      return [];
    }
  }

  // Changes the list under a lock, since other tabs change it too.
  #change(change) {
    return this.#locked("", () => {
      this.#setAside();
      const wanted = change(this.#all()), after = wanted.slice(-this.#most);
      this.lost += wanted.length - after.length;
      try {
        this.#storage.setItem(this.#name, JSON.stringify(after));
        this.#memory = [];
      } catch {
        const stored = new Set(this.#read());
        this.#memory = after.filter((text) => !stored.has(text));
        this.#keepOnly(after);
      }
      this.#changed();
    });
  }

  // A full storage takes a shorter list.
  #keepOnly(after) {
    const wanted = new Set(after);
    try {
      this.#storage.setItem(this.#name, JSON.stringify(this.#read().filter((text) => wanted.has(text))));
    } catch { /* it keeps what it has, which is sent again */ }
  }

  // What is in the storage and isn't a list of reports goes under another name; someone may still read it.
  #setAside() {
    try {
      const found = this.#storage.getItem(this.#name);
      if (found && found !== "[]" && !this.#read().length) {
        this.#storage.setItem(this.#name + "-unreadable", found);
        this.lost += 1;
      }
    } catch { /* there is no storage */ }
  }

  #locked(end, work, options = {}) {
    if (!globalThis.navigator?.locks) return Promise.resolve().then(work);
    return navigator.locks.request(this.#name + end, options, (lock) => lock ? work() : this.#later(FIRST_PAUSE));
  }

  async #sendAll() {
    for (let some = this.#all(); some.length && Date.now() >= this.#notBefore; some = this.#all()) {
      const sent = some.slice(0, this.#size), answer = await this.#post(sent);
      if (answer.counts) await this.#settle(sent, answer.counts);
      else if (answer.never) await this.#halve(sent);
      else return this.#later(answer.after);
    }
  }

  async #settle(sent, counts) {
    if (counts.full) return this.#later(LATER);                 // nobody knows which of them aren't kept, so all go again much later
    for (const name of Object.keys(counts)) this.counts[name] += counts[name];
    this.#pause = FIRST_PAUSE;
    // After a body that is never taken, one good body may be its front half; after a second one there is nothing left to look for.
    if (++this.#good > 1) this.#size = BATCH;
    await this.#remove(sent);
  }

  // A body that is never taken is halved until the report is alone that is the reason; it is given up.
  async #halve(sent) {
    this.#good = 0;
    this.#size = sent.length > 1 ? Math.ceil(sent.length / 2) : BATCH;
    if (sent.length > 1) return;
    this.lost += 1;
    await this.#remove(sent);
  }

  #remove(sent) {
    const gone = new Set(sent);
    return this.#change((waiting) => waiting.filter((text) => !gone.has(text)));
  }

  // The next try, not before so many milliseconds, and spread so that many pages don't come at once.
  #later(after) {
    this.#answered = after !== undefined;
    const wait = Math.min(2 * LATER, Math.max(after ?? 0, this.#pause) * (1 + Math.random() / 2));
    this.#pause = Math.min(2 * this.#pause, LATER);
    this.#notBefore = Date.now() + wait;
    clearTimeout(this.#timer);
    this.#timer = setTimeout(() => this.flush(), wait);
  }

  async #post(sent) {
    try {
      const answer = await this.#fetch(sent, { signal: AbortSignal.timeout(30_000) });
      if (answer.status === 400 || answer.status === 413) return { never: true };
      if (answer.status === 200) return { counts: countsOf(await answer.text(), sent.length), after: 0 };
      return { after: 1000 * (Number(answer.headers.get("Retry-After")) || 0) };
    } catch {
      return {};
    }
  }

  // A body of no type is sent at once, with no question by OPTIONS before it.
  #fetch(texts, more) {
    const hidden = { credentials: "omit", referrerPolicy: "no-referrer", redirect: "error", cache: "no-store" };
    return fetch(this.#url, { method: "POST", body: streamOf(texts), ...hidden, ...more });
  }
}
