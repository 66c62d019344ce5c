// The form: one report a visitor and week, made by the client of bindings/web and sent by the outbox.
import { load, normalized, MAX_VALUE } from "./star_client.mjs";
import { Outbox } from "./outbox.mjs";
import { configurationAt, epochAt, termsOf } from "./terms.mjs";

const byId = (id) => document.getElementById(id);
const trial = new URLSearchParams(location.search).has("trial");        // several reports from one browser, to see how it works
const REPORTED = "star-reported", NEVER = "star-never";

const say = (text, look = "") => { byId("said").textContent = text; byId("said").className = look; };
const remembered = (name) => { try { return localStorage.getItem(name); } catch { return null; } };
const remember = (name, value) => { try { localStorage.setItem(name, value); } catch { /* this browser remembers nothing */ } };
const counted = (n, what) => `${n} ${what}${n === 1 ? "" : "s"}`;

let configuration, terms, client, waited = 0;
const outbox = new Outbox("v1/reports", { changed: () => sayState() });

// What became of the reports of this page, in words.
function sayState() {
  const { counts, lost, waiting, lasting } = outbox, kept = counts.new + counts.known;
  const lines = [];
  if (kept) lines.push(`Reported: the collector has ${kept === 1 ? "the report" : counted(kept, "report")}.`);
  if (counts.refused) {
    lines.push(`The collector refused ${counted(counts.refused, "report")}. This device's clock may be wrong, or this page old: load it again.`);
  }
  if (waiting) {
    lines.push(`${counted(waiting, "report")} ${waiting === 1 ? "waits" : "wait"} to be sent; this page tries again by itself. `
      + (lasting ? "You may close it: the next visit sends the rest." : "This browser keeps nothing, so leave the page open."));
  }
  if (lost) lines.push(`${counted(lost, "report")} ${lost === 1 ? "was" : "were"} lost: the collector never takes it, or this browser had no room.`);
  if (!waiting && waited && !lines.length) lines.push("Another tab of this page has sent what waited.");
  waited = waiting;
  if (lines.length) say(lines.join("\n"), counts.refused || lost ? "bad" : waiting ? "" : "good");
}

// The fields of the form and its words, by the terms of this week.
function showTerms() {
  byId("fields").replaceChildren(...terms.layers.map((name, i) => {
    const label = document.createElement("label"), input = document.createElement("input");
    Object.assign(input, { name: `layer${i}`, required: true });
    label.append(name, input);
    return label;
  }));
  const steps = terms.layers.map((name, i) => i ? `its ${name} once ${terms.thresholds[i]} do`
    : `the ${name} is learned once ${terms.thresholds[i]} reports of this week agree on it`);
  byId("terms").textContent = "What you enter leaves this page as one sealed report, without your name and without cookies. "
    + `In it, ${steps.join(", ")}.`;
}

// The values of the form in the one normal form; null after saying which one can't be sent.
function valuesOfForm() {
  const inputs = [...byId("fields").querySelectorAll("input")], values = inputs.map((input) => normalized(input.value));
  for (const [i, value] of values.entries()) {
    const bytes = new TextEncoder().encode(value).length;
    if (bytes >= 1 && bytes <= MAX_VALUE) continue;
    const fault = bytes ? `has ${bytes} bytes, and at most ${MAX_VALUE} can be sent` : "is blank";
    say(`The ${terms.layers[i]} ${fault}. Nothing was sent.`, "bad");
    inputs[i].focus();
    return null;
  }
  return values;
}

async function report() {
  const values = valuesOfForm();
  if (!values) return;
  configuration = await configurationAt("configuration.json").catch(() => configuration);
  const epoch = epochAt(), now = termsOf(configuration, epoch);
  if (JSON.stringify(now) !== JSON.stringify(terms)) return say("The terms of this page have changed. Load it again; nothing was sent.", "bad");
  await outbox.add(client.report({ values, thresholds: now.thresholds, version: now.version, epoch }));
  remember(REPORTED, String(epoch));
  const refused = outbox.counts.refused;
  await outbox.flush();
  if (outbox.counts.refused > refused) remember(REPORTED, "");        // a refused report is none: with the clock set right, there may be one
}

// Whether this visitor may report now: once a week, unless they said no.
function showState() {
  const reported = Number(remembered(REPORTED)) === epochAt() ? "You have reported this week." : "";
  const said = remembered(NEVER) ? "You asked not to be asked here, so nothing is sent." : reported;
  byId("send").disabled = Boolean(said) && !trial;
  byId("never").hidden = Boolean(remembered(NEVER));
  if (said && !trial && !byId("said").textContent) say(said);
}

function listen() {
  byId("form").addEventListener("submit", async (event) => {
    event.preventDefault();
    if (byId("send").disabled) return;
    byId("send").disabled = true;
    await report().catch((fault) => say(`The report couldn't be made: ${fault.message}`, "bad"));
    showState();
  });
  byId("never").addEventListener("click", () => { remember(NEVER, "yes"); say(""); showState(); });
  addEventListener("online", () => outbox.flush());
  addEventListener("pagehide", () => outbox.leave());
}

try {
  [client, configuration] = await Promise.all([load(), configurationAt("configuration.json")]);
  terms = termsOf(configuration, epochAt());
  if (!terms) throw new Error("there are no terms for this week");
  showTerms();
  listen();
  say(trial ? "A trial: this page takes more than one report." : "");
  showState();
  outbox.flush();
  document.documentElement.dataset.ready = "yes";
} catch (fault) {
  say(`This page can't make reports here, so nothing is sent: ${fault.message}`, "bad");
}
