// Checks for a light client of an authenticated database. The types, and what each call answers, stand in gawerunoa.d.ts.

export const version = "0.1.0";

export const Family = Object.freeze({ MMR: 0, MMB: 1 });
export const Hash = Object.freeze({ SHA256: 0, SHA512: 1 });
export const Values = Object.freeze({ VARIABLE: "", SIZED: "sized_", FIXED: "fixed_" });
export const ANY_LENGTH = Object.freeze([0n, 2n ** 64n - 1n]);

/** Memory ran out, which says nothing of the claim. */
export class OutOfMemory extends Error {
  constructor() {
    super("memory ran out during the check");
    this.name = "OutOfMemory";
  }
}

/** What the module answers, by the names of its C header. */
export const Answer = Object.freeze({
  YES: 1,
  NO: 0,
  NO_MEMORY: -1,
  OTHER_ROOT: -2,
  OTHER_FAMILY: -3,
  OTHER_HASH: -4,
  OTHER_LENGTHS: -5,
  OTHER_KEY: -6,
  OTHER_VALUE: -7,
  OTHER_AGREED: -8,
  OTHER_KIND: -9,
  OTHER_ENCODING: -10,
});

/** An argument can be part of no question. `answer` names what is wrong with it. */
export class Refused extends RangeError {
  constructor(answer) {
    super(REFUSALS.get(answer));
    this.name = "Refused";
    this.answer = answer;
  }
}

const REFUSALS = new Map([
  [Answer.OTHER_ROOT, "the root has another length than a digest of the hash function"],
  [Answer.OTHER_FAMILY, "there is no such family"],
  [Answer.OTHER_HASH, "there is no such hash function"],
  [Answer.OTHER_LENGTHS, "the lengths of a list do not add up to its bytes"],
  [Answer.OTHER_KEY, "the key has a length that no key of one size has: these have 4, 8, 20 or 32 bytes"],
  [Answer.OTHER_VALUE, "the value has a size that no value of one size has: these have 4, 8, 20 or 32 bytes, all the same"],
  [Answer.OTHER_AGREED, "there is not one struct of what is agreed"],
  [Answer.OTHER_KIND, "there is no such kind of keys"],
  [Answer.OTHER_ENCODING, "there is no such encoding of values, or none for keys of this kind: fixed values have keys of one size"],
]);
const MOST = 2n ** 64n - 1n;

let compiled;

/** Loads the module: from its bytes, else from the file beside this one, which Node reads and a browser fetches, but once. */
export async function load(bytes) {
  compiled ??= bytes ? undefined : WebAssembly.compile(await beside("gawerunoa.wasm"));
  const { exports } = await WebAssembly.instantiate(bytes ? await WebAssembly.compile(bytes) : await compiled);
  return new Checks(exports);
}

async function beside(name) {
  const url = new URL(name, import.meta.url);
  if (url.protocol === "file:") {
    const { readFile } = await import("node:fs/promises");
    return readFile(url);
  }
  const response = await fetch(url);
  if (!response.ok) throw new Error(`there is no ${url}`);
  return response.arrayBuffer();
}

/** The checks, over one module and its memory. */
class Checks {
  #exports;

  constructor(exports) {
    this.#exports = exports;
  }

  /** How the module was built: its version, and the kit that proved its sources. */
  build() {
    const bytes = new Uint8Array(this.#exports.memory.buffer).subarray(Number(this.#exports.gawerunoa_build()));
    return new TextDecoder().decode(bytes.subarray(0, bytes.indexOf(0)));
  }

  checkOperation({ family, hash, chunkSize, location, proof, operation, root }) {
    return this.#ask("operation", family, hash, size(chunkSize), size(location), proof, operation, root);
  }

  checkRange({ family, hash, chunkSize, maxDigests = 128n, start, proof, operations, chunks, root }) {
    const numbers = [size(chunkSize), size(maxDigests), size(start)];
    return this.#ask("range", family, hash, ...numbers, proof, ...list(operations), ...list(chunks), root);
  }

  checkValue({ family, hash, chunkSize, values, keyLengths, proof, key, value, root }) {
    const [call, lengths] = keysOf(keyLengths, values);
    return this.#ask(`${call}value`, family, hash, size(chunkSize), ...lengths, proof, key, value, root);
  }

  checkAbsence({ family, hash, chunkSize, values, valueLengths = ANY_LENGTH, keyLengths, proof, key, root }) {
    const [call, lengths] = keysOf(keyLengths, values);
    const [least, greatest] = valueLengths.map(size);
    const isVariable = values === Values.VARIABLE;
    if (!isVariable && least !== greatest) throw new RangeError("values of one size have one length");
    lengths.push(...(isVariable ? [least, greatest] : [least]));
    return this.#ask(`${call}absence`, family, hash, size(chunkSize), ...lengths, proof, key, root);
  }

  /** Asks an export. An array is handed over as a pointer and a length; its room is given back before this returns. */
  #ask(call, ...parts) {
    const rooms = [];
    try {
      const words = parts.flatMap((part) => (ArrayBuffer.isView(part) ? this.#lend(part, rooms) : [part]));
      return told(this.#exports[`gawerunoa_check_${call}`](...words));
    } finally {
      rooms.forEach((room) => this.#exports.gawerunoa_give_back(room));
    }
  }

  #lend(array, rooms) {
    const room = this.#exports.gawerunoa_room(BigInt(array.byteLength));
    if (room === 0n) throw new OutOfMemory();
    rooms.push(room);
    const bytes = new Uint8Array(array.buffer, array.byteOffset, array.byteLength);
    new Uint8Array(this.#exports.memory.buffer).set(bytes, Number(room));
    return [room, BigInt(array.length)];
  }
}

function told(answer) {
  if (answer === Answer.NO_MEMORY) throw new OutOfMemory();
  if (REFUSALS.has(answer)) throw new Refused(answer);
  if (answer !== Answer.YES && answer !== Answer.NO) throw new Error(`the module answered ${answer}`);
  return answer === Answer.YES;
}

function size(number) {
  const whole = BigInt(number);
  if (whole < 0n || whole > MOST) throw new RangeError(`${number} is no number from 0 to 2^64 - 1`);
  return whole;
}

/** What the name of the call about a key begins with, and the lengths that it is told of keys. */
function keysOf(keyLengths, values) {
  if (!Object.values(Values).includes(values)) throw new RangeError("there is no such encoding of values");
  if (keyLengths === undefined) return [values, []];
  if (values === Values.FIXED) throw new RangeError("a database of fixed values has keys of one size");
  return [`string_${values}`, keyLengths.map(size)];
}

/** The strings of a list as one, and the length of each. */
function list(strings) {
  const bytes = new Uint8Array(strings.reduce((sum, it) => sum + it.length, 0));
  let end = 0;
  for (const it of strings) {
    bytes.set(it, end);
    end += it.length;
  }
  return [bytes, BigUint64Array.from(strings, (it) => BigInt(it.length))];
}
