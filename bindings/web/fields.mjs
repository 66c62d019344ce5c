// The fields of a report's frame, for a page that shows them.

/** What kinds of fields there are: what shows openly, what a group shares, what differs, and what is hidden. */
export const KINDS = {
  open: "shows openly",
  group: "equal for all who report the same first value",
  share: "a share of the key, one of the many that open the group",
  hidden: "hidden until enough report the same",
  seal: "keeps the report from being changed",
};

/** The fields of the frame of layer 0, from left to right. */
export function fieldsOf(report) {
  const box = report[90], body = (report[103 + box] << 8) + report[104 + box];
  const layout = [
    ["magic", 2, "open"], ["version", 1, "open"], ["level", 1, "open"], ["epoch", 4, "open"], ["threshold", 2, "open"],
    ["point", 8, "share"], ["shares", 24, "share"], ["tag", 16, "group"], ["check", 32, "group"], ["length of the box", 1, "open"],
    ["box: the first value", box, "hidden"], ["nonce", 12, "open"], ["length of the body", 2, "open"],
    ["body: the other layers", body, "hidden"], ["seal", 32, "seal"],
  ];
  let at = 0;
  return layout.map(([name, size, kind]) => {
    const field = { name, kind, at, bytes: report.slice(at, at + size) };
    at += size;
    return field;
  });
}

/** A record of a stream: the length of a report in four bytes, and the report. */
export function recordOf(report) {
  const record = new Uint8Array(4 + report.length);
  new DataView(record.buffer).setUint32(0, report.length);
  record.set(report, 4);
  return record;
}

export const hexOf = (bytes) => [...bytes].map((b) => b.toString(16).padStart(2, "0")).join("");

/** The bytes of a hexadecimal text, or null if it is none. */
export const bytesOfHex = (text) => /^([0-9a-fA-F]{2})*$/.test(text) ? Uint8Array.from(text.match(/../g) ?? [], (x) => parseInt(x, 16)) : null;
