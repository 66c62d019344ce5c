// Makes a report of a country and a city, and writes it to standard output as one record of a stream:
//     node example.mjs Germany Berlin > reports.stream
import { load } from "star-client";

const client = await load();
process.stdout.write(client.record({ values: process.argv.slice(2), thresholds: [20, 10], epoch: 1 }));
