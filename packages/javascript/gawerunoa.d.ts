/**
 * Checks for a light client of an authenticated database. The client trusts one digest: the canonical root of a snapshot.
 *
 * Strangers hand it a proof and a claim. `true` means that the claim holds in every snapshot with that root, family, hash function and
 * chunk size; or that two different byte strings have one digest, one hashed by the check, the other by the calculation of the root.
 * `false` means nothing more than that this proof does not show the claim. Whether the root is recent the caller has to know.
 *
 * A call throws `OutOfMemory` where memory ran out, which says nothing of the claim, and `Refused` or another `RangeError` where an argument
 * can be part of no question: a root with another length than a digest, say.
 */

export const version: string;

/** The shape of the trees: Merkle mountain ranges or Merkle mountain belts. */
export const Family: Readonly<{ MMR: 0; MMB: 1 }>;
export type Family = 0 | 1;

/** The digest function. Digests of SHA-256 have 32 bytes, those of SHA-512 have 64. */
export const Hash: Readonly<{ SHA256: 0; SHA512: 1 }>;
export type Hash = 0 | 1;

/**
 * How a database encodes its values. VARIABLE: a value has any length, which is written before it. SIZED: all values have 4, 8, 20 or 32
 * bytes, and an operation is as long as its parts. FIXED: as SIZED, but zeros fill up all operations to one size; such a database has
 * keys of one size.
 */
export const Values: Readonly<{ VARIABLE: ""; SIZED: "sized_"; FIXED: "fixed_" }>;
export type Values = "" | "sized_" | "fixed_";

/** The least and the greatest length of a string. */
export type Lengths = readonly [number | bigint, number | bigint];

export const ANY_LENGTH: Lengths;

export class OutOfMemory extends Error {}

/** What the module answers, by the names of its C header. */
export const Answer: Readonly<{
  YES: 1;
  NO: 0;
  NO_MEMORY: -1;
  OTHER_ROOT: -2;
  OTHER_FAMILY: -3;
  OTHER_HASH: -4;
  OTHER_LENGTHS: -5;
  OTHER_KEY: -6;
  OTHER_VALUE: -7;
  OTHER_AGREED: -8;
  OTHER_KIND: -9;
  OTHER_ENCODING: -10;
}>;

/** An argument can be part of no question. `answer` names what is wrong with it. */
export class Refused extends RangeError {
  readonly answer: number;
}

/** What the server and the client have agreed on. */
export interface Agreed {
  family: Family;
  hash: Hash;
  /** How many bytes a chunk of activity bits has. A size that no chunk has gives `false`. */
  chunkSize: number | bigint;
}

export interface AgreedKeys extends Agreed {
  values: Values;
  /**
   * Without it all keys have one size: 4, 8, 20 or 32 bytes. With it keys are strings, and a proof that names a key of another length gives
   * `false`.
   */
  keyLengths?: Lengths;
}

export interface Checks {
  /** How the module was built: its version, and the kit that proved its sources. */
  build(): string;

  /** Whether `operation` stands at `location` and is active, by an operation proof of at most 128 digests. */
  checkOperation(asked: Agreed & { location: number | bigint; proof: Uint8Array; operation: Uint8Array; root: Uint8Array }): boolean;

  /**
   * Whether `operations` stand at the locations from `start` on, and `chunks` are all those with an activity bit of one of them, by a range
   * proof of at most `maxDigests` digests (128).
   */
  checkRange(
    asked: Agreed & {
      maxDigests?: number | bigint;
      start: number | bigint;
      proof: Uint8Array;
      operations: readonly Uint8Array[];
      chunks: readonly Uint8Array[];
      root: Uint8Array;
    },
  ): boolean;

  /** Whether `key` has the value `value`, by a key-value proof. */
  checkValue(asked: AgreedKeys & { proof: Uint8Array; key: Uint8Array; value: Uint8Array; root: Uint8Array }): boolean;

  /**
   * Whether `key` has no value, by an exclusion proof. `valueLengths` are the least and the greatest length of a value that the proof may
   * name; where values have one size, both are that size.
   */
  checkAbsence(asked: AgreedKeys & { valueLengths?: Lengths; proof: Uint8Array; key: Uint8Array; root: Uint8Array }): boolean;
}

/** Loads the module: from its bytes, else from the file beside this one. Node 24 runs it, and each browser with wasm64. */
export function load(bytes?: BufferSource): Promise<Checks>;
