/** The kinds of fields, each with what it says. */
export const KINDS: Readonly<Record<Kind, string>>;
export type Kind = "open" | "group" | "share" | "hidden" | "seal";

/** A field of a report's frame: its name, its kind, at which byte it begins, and its bytes. */
export interface Field {
  name: string;
  kind: Kind;
  at: number;
  bytes: Uint8Array;
}

/** The fields of the frame of layer 0, from left to right. */
export function fieldsOf(report: Uint8Array): Field[];

/** A record of a stream: the length of a report in four bytes, and the report. */
export function recordOf(report: Uint8Array): Uint8Array;

export function hexOf(bytes: Iterable<number>): string;

/** The bytes of a hexadecimal text, or null if it is none. */
export function bytesOfHex(text: string): Uint8Array | null;
