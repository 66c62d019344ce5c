// Makes the report of each line of standard input through the package star-client, which is installed beside this file, as lines.c does:
// by the module of it that the first word names, or else by the one that the package chooses.
import fs from "node:fs";
import { ClientError, load } from "star-client";
import { bytesOfHex, hexOf, recordOf } from "star-client/fields.mjs";

const name = process.argv[2];
const client = await (name ? load(fs.readFileSync(new URL(import.meta.resolve(`star-client/${name}`)))) : load());
const list = (word) => (word === "-" ? [] : word.split(","));

for (const line of fs.readFileSync(0, "utf8").trim().split("\n")) {
  const [version, epoch, number, seed, thresholds, values, extra] = line.split(" ");
  const content = { version: +version, thresholds: list(thresholds).map(Number), values: list(values).map(bytesOfHex), extra: extra === "-" ? [] : bytesOfHex(extra) };
  const request = { ...content, epoch: +epoch, client: +number, seed: bytesOfHex(seed) };
  try {
    const report = client.report(request);
    const good = client.length(content) === report.length && hexOf(client.record(request)) === hexOf(recordOf(report));
    console.log(good ? hexOf(report) : "length or record differ");
  } catch (error) {
    if (!(error instanceof ClientError)) throw error;
    console.log(`status ${error.status}`);
  }
}
