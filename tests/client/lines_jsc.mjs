// Makes the report of each line of standard input through bindings/web in WebKit's engine, as lines.c does: in JavaScriptCore's command-line
// interpreter, which has neither TextEncoder nor random bytes (each line has its seed). From the top of the repository:
//     jsc -m tests/client/lines_jsc.mjs < LINES
globalThis.TextEncoder = class { encode() { throw new Error("no text is asked for here"); } };
const { ClientError, load } = await import("../../bindings/web/star_client.mjs");
const { bytesOfHex, hexOf } = await import("../../bindings/web/fields.mjs");

const client = await load(readFile("bindings/web/star_client_32.wasm", "binary"));
const list = (word) => (word === "-" ? [] : word.split(","));

for (let line = readline(); line; line = readline()) {
  const [version, epoch, number, seed, thresholds, values, extra] = line.split(" ");
  const content = { version: +version, thresholds: list(thresholds).map(Number), values: list(values).map(bytesOfHex), extra: extra === "-" ? [] : bytesOfHex(extra) };
  try {
    const report = client.report({ ...content, epoch: +epoch, client: +number, seed: bytesOfHex(seed) });
    print(client.length(content) === report.length ? hexOf(report) : "length differs");
  } catch (error) {
    if (!(error instanceof ClientError)) throw error;
    print(`status ${error.status}`);
  }
}
