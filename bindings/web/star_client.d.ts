/** The bytes of a seed. */
export const SEED_BYTES: 32;
/** The most bytes of a value; it has one at least. */
export const MAX_VALUE: 64;
/** The most extra bytes of a report of version 2; one of version 1 has none. */
export const MAX_EXTRA: 255;
/** The most layers of a report, by its version. */
export const MAX_LAYERS: Readonly<Record<1 | 2, number>>;
/** The greatest threshold, by the version; the least is 2 in both. */
export const MAX_THRESHOLD: Readonly<Record<1 | 2, number>>;
/** The most bytes of a report; in version 1 it has at most 1616. */
export const MAX_REPORT: 3487;
/** The most bytes of a record: a report and the four of its length. */
export const MAX_RECORD: 3491;

/** What can be wrong with a request, by its status. */
export type Status = 1 | 2 | 3 | 4 | 5;
export const FAULTS: Readonly<Record<Status, string>>;

/** A request from which no report can be made. The message names the argument and its limit. */
export class ClientError extends Error {
  constructor(status: Status, message?: string);
  readonly status: Status;
}

/** Bytes, each from 0 to 255, or a text that is encoded as UTF-8. */
export type Bytes = string | Uint8Array | readonly number[];

/** The layers of a report. Anything beyond a limit is a ClientError. */
export interface Layers {
  /** 1 (the default) or 2. */
  version?: 1 | 2;
  /** From how many reports on the aggregator may learn each value: 1 to 8 numbers from 2 to 512, in version 2 1 to 16 from 2 to 4096. */
  thresholds: readonly number[];
}

/** What a report says. */
export interface Content extends Layers {
  /** One value of 1 to 64 bytes for each threshold. */
  values: readonly Bytes[];
  /** What the aggregator learns if it learns the last value: up to 255 bytes in version 2, none in version 1. */
  extra?: Bytes;
}

/** A report to make. */
export interface Request extends Content {
  /** From 0 to 4294967295, otherwise a RangeError: only reports of the same epoch are counted together. */
  epoch: number;
  /** 32 bytes. If it is left out, a seed is drawn for this report, as a client that makes one report should do. */
  seed?: Bytes;
  /** From 0 to 4294967295, otherwise a RangeError: 0 if the seed is drawn. A seed and a number make one report, ever. */
  client?: number;
}

/** Reports to make, each with a seed of its own. */
export interface Requests extends Layers {
  /** A row of values for each report. */
  rows: Iterable<readonly Bytes[]>;
  /** The extra bytes of each row, if the reports have some. */
  extras?: Iterable<Bytes>;
  /** As in a request. */
  epoch: number;
  /** Is called with the number of records made, some thirty times a second, and at the end. */
  progress?: (made: number) => void;
}

export interface Client {
  /** The report after its length of four bytes, as it is in a stream: concatenated records are a stream. */
  record(request: Request): Uint8Array;
  /** The bytes of a report alone. */
  report(request: Request): Uint8Array;
  /** A stream: a record for each row. A fault names its row, and then there is no stream. The page keeps running meanwhile. */
  records(requests: Requests): Promise<Uint8Array>;
  /** How many bytes that report has; its record has four more. */
  length(content: Content): number;
}

/**
 * The client in the module next to this file: star_client.wasm, or star_client_32.wasm if the engine has no 64-bit memory.
 * If the bytes of a module are passed, or a response with them such as that of `fetch`, it loads those.
 */
export function load(source?: BufferSource | Response | Promise<BufferSource | Response>): Promise<Client>;

/** The address of the module that `load()` loads in this engine. */
export function moduleAddress(): URL;

/** What `normalized` trims: Unicode's White_Space, U+001C to U+001F, and U+FEFF. */
export const TRIMMED: string;

/** The text without the characters of TRIMMED at its ends, in NFC, and in lower case if asked for. */
export function normalized(text: string, options?: { lower?: boolean }): string;
