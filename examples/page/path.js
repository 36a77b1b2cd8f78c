// Reads a proof field by field, and draws the path from what is claimed up to the root. An illustration: only the answer is proved code's.
"use strict";

const hexadecimalOf = (bytes) => Array.from(bytes, (it) => it.toString(16).padStart(2, "0")).join("");

const MMR = 0;
const MMB = 1;
const DIGEST_SIZES = [32, 64];

/** Reads bytes from the first on, and notes the field that each of them is part of. */
class Reader {
  constructor(bytes) {
    this.bytes = bytes;
    this.at = 0;
    this.fields = [];
  }

  get left() {
    return this.bytes.length - this.at;
  }

  take(name, count) {
    if (count > this.left) throw new RangeError("the bytes end too early");
    const from = this.at;
    this.at += count;
    if (count > 0) this.fields.push({ name, from, to: this.at });
    return this.bytes.subarray(from, this.at);
  }

  number(name) {
    const from = this.at;
    for (let value = 0n, shift = 0n; shift < 70n; shift += 7n) {
      if (this.left === 0) throw new RangeError("the bytes end too early");
      const byte = this.bytes[this.at];
      this.at += 1;
      value |= BigInt(byte & 127) << shift;
      if (byte < 128) {
        this.fields.push({ name, from, to: this.at });
        return value;
      }
    }
    throw new RangeError("a number is too long");
  }

  option(name, size) {
    const [isThere] = this.take(`whether there is a ${name}`, 1);
    if (isThere > 1) throw new RangeError("a byte that is 00 or 01 is another one");
    return isThere ? this.take(name, size) : null;
  }
}

/** The parts of a proof: of an operation, of a value with the next key behind, or of an absence with a tag before and an update behind. */
function partsOf({ claim, family, hash, chunk, proof }) {
  const reader = new Reader(proof);
  const size = DIGEST_SIZES[hash];
  const tag = claim === "absence" ? reader.take("tag", 1)[0] : null;
  if (tag > 1) throw new RangeError("the tag is none of 00 and 01");
  const location = reader.number("location");
  const bits = reader.take("chunk", Number(chunk));
  const leaves = reader.number("leaves");
  const inactive = reader.number("inactive peaks");
  const count = reader.number("number of digests");
  if (count > 128n) throw new RangeError("there are more than 128 digests");
  const digests = Array.from({ length: Number(count) }, (_, it) => reader.take(`digest ${it + 1} of ${count}`, size));
  const pending = family === MMB ? reader.option("pending chunk's digest", size) : null;
  const partial = reader.option("partial chunk's digest", size);
  const operationsRoot = reader.take("operations root", size);
  const behind = claim === "operation" ? null : reader.take(BEHIND[claim][tag ?? 0], reader.left);
  if (reader.left > 0) throw new RangeError("there are bytes after the proof");
  return { tag, location, bits, leaves, inactive, digests, pending, partial, operationsRoot, behind, fields: reader.fields };
}

/** What stands behind the operation proof, by the tag. */
const BEHIND = { value: ["next key"], absence: ["update", "value of the commit"] };

const width = (node) => 1n << BigInt(node.height);

/** The heights of the peaks over the first leaves, from the left. */
function heightsOf(family, leaves) {
  const digits = Array.from((leaves + BigInt(family)).toString(2), Number).reverse();
  const heights = family === MMR
    ? digits.map((digit, place) => (digit === 1 ? place : -1)).filter((it) => it >= 0)
    : digits.slice(0, -1).map((digit, place) => place + digit);
  return heights.reverse();
}

/** The peaks over the first leaves, from the left. */
function peaksOf(family, leaves) {
  let first = 0n;
  return heightsOf(family, leaves).map((height) => {
    const peak = { height, first };
    first += width(peak);
    return peak;
  });
}

/** How many nodes the tree over the first leaves has. */
const sizeOf = (family, leaves) => 2n * leaves - BigInt(heightsOf(family, leaves).length);

function positionOf(family, { height, first }) {
  if (height === 0) return sizeOf(family, first);
  const half = 1n << BigInt(height - 1);
  return family === MMB ? sizeOf(family, first + 3n * half - 1n) - 1n : sizeOf(family, first) + 4n * half - 2n;
}

const shortened = (bytes) => (bytes.length > 8 ? `${hexadecimalOf(bytes.subarray(0, 8))}…` : hexadecimalOf(bytes));
const reach = (node) => (node.height === 0 ? `location ${node.first}` : `locations ${node.first} to ${node.first + width(node) - 1n}`);
const made = (name, detail = "") => ({ kind: "made", name, detail });
const from = (bytes) => [bytes.byteOffset];
const given = (name, bytes) => ({ kind: "given", name, detail: shortened(bytes), fields: from(bytes) });
const step = (result, left, right) => ({ result, left: [left].flat().filter(Boolean), right: [right].flat().filter(Boolean) });

/** What a path goes through: its peak and the sibling at each height of it, with the digests that the proof has for all sites. */
function sitesOf(family, { location, leaves, inactive, digests }) {
  if (location >= leaves || leaves > 1n << 62n) throw new RangeError("the location is not below the leaves");
  const peaks = peaksOf(family, leaves);
  if (inactive > BigInt(peaks.length)) throw new RangeError("there are more inactive peaks than peaks");
  const at = peaks.findIndex((it) => location < it.first + width(it));
  const folded = Math.min(Number(inactive), at);
  const pastFrom = Math.max(Number(inactive), at + 1);
  const nodes = Array.from({ length: peaks[at].height + 1 }, (_, height) => {
    const offset = location - peaks[at].first;
    return { height, first: peaks[at].first + ((offset >> BigInt(height)) << BigInt(height)) };
  });
  const siblings = nodes.slice(0, -1).map((node, height) => {
    const isLeft = nodes[height + 1].first === node.first;
    return { height, isLeft: !isLeft, first: isLeft ? node.first + width(node) : node.first - width(node) };
  });
  const queue = [...digests];
  const next = () => {
    if (queue.length === 0) throw new RangeError("there are fewer digests than the path has");
    return queue.shift();
  };
  const before = folded > 0 ? [given(folded === 1 ? "first peak" : `fold of the first ${folded} peaks`, next())] : [];
  const activeBefore = peaks.slice(folded, at).map((it) => given(`peak, ${reach(it)}`, next()));
  const inactivePast = peaks.slice(at + 1, pastFrom).map((it) => given(`peak, ${reach(it)}`, next()));
  const rest = peaks.length - pastFrom;
  const past = rest > 0 ? [given(rest === 1 ? "last peak" : `fold of the last ${rest} peaks`, next())] : [];
  const place = (it) => positionOf(family, it);
  const ascending = [...siblings].sort((one, other) => (place(one) < place(other) ? -1 : 1));
  ascending.forEach((it) => Object.assign(it, { box: given(reach(it), next()) }));
  if (queue.length > 0) throw new RangeError("there are more digests than the path has");
  return { nodes, siblings, before, activeBefore, inactivePast, past, isInactive: at < Number(inactive) };
}

/** Where the chunk of the location is hashed: into a node, or into a slot of the root. */
function placeOfChunk(family, chunk, { location, leaves }) {
  const bits = 8n * chunk;
  const height = bits.toString(2).length - 1;
  const birth = family === MMB ? 3n * (bits / 2n) - 1n : bits;
  const graftable = leaves < birth ? 0n : (leaves - birth) / bits + 1n;
  const index = location / bits;
  if (index < graftable) return { slot: null, height };
  return { slot: index < leaves / bits ? "pending" : "partial", height };
}

/** The bit of the location in its chunk, in words. */
function bitOf(chunk, { location, bits }) {
  const place = Number(location % (8n * chunk));
  const isSet = (bits[place >> 3] >> (place & 7)) & 1;
  return `bit ${place} is ${isSet ? "set" : "not set"}`;
}

/** The peaks are folded: those on the right first, but an inactive peak is folded with those before it first. */
function foldsOf({ before, activeBefore, inactivePast, past, isInactive }) {
  const lefts = [...activeBefore].reverse();
  const sides = isInactive
    ? [...before.map((it) => [it, null]), ...[...inactivePast, ...past].map((it) => [null, it])]
    : [...past.map((it) => [null, it]), ...[...lefts, ...before].map((it) => [it, null])];
  return sides.map(([left, right]) => step(made("fold of peaks"), left, right));
}

/** Where the path begins: what is claimed, and what of the proof stands between that and the leaf, or beside it. */
function beginningOf({ claim, operation, key, value }, { tag, behind }) {
  const claimed = (name, bytes) => step({ kind: "claimed", name, detail: shortened(bytes) });
  if (claim === "operation") return { steps: [claimed("operation", operation)], beside: null };
  if (claim === "value") {
    return { steps: [claimed(`key ${shortened(key)}`, value)], beside: behind.length > 0 ? given("next key", behind) : null };
  }
  const name = tag === 0 ? "update that spans the key" : "commit at its own floor";
  const shown = behind.length > 0 ? given(name, behind) : { kind: "given", name, detail: "" };
  return { steps: [claimed("key", key), step(shown)], beside: null };
}

/** All steps from what is claimed up to the root. */
function stepsOf(question, parts = partsOf(question)) {
  const { family, chunk } = question;
  const sites = sitesOf(family, parts);
  const chunkPlace = placeOfChunk(family, chunk, parts);
  const fieldsOf = (...names) => parts.fields.filter((it) => names.includes(it.name)).map((it) => it.from);
  const chunkBox = { kind: "given", name: `chunk ${parts.location / (8n * chunk)}`, detail: bitOf(chunk, parts), fields: from(parts.bits) };
  const { steps, beside } = beginningOf(question, parts);
  sites.nodes.forEach((node, height) => {
    const sibling = sites.siblings[height - 1];
    const box = { ...made(height === 0 ? "leaf" : `node of height ${height}`, reach(node)), fields: height === 0 ? fieldsOf("location") : [] };
    steps.push(step(box, sibling?.isLeft && sibling.box, height === 0 ? beside : sibling && !sibling.isLeft && sibling.box));
    if (chunkPlace.slot === null && height === chunkPlace.height) {
      steps.push(step(made("node with its chunk", reach(node)), chunkBox, null));
    }
  });
  steps.push(...foldsOf(sites));
  const counted = fieldsOf("leaves", "inactive peaks");
  const counts = { kind: "given", name: `leaves: ${parts.leaves}`, detail: `inactive peaks: ${parts.inactive}`, fields: counted };
  steps.push(step(made("grafted root"), counts, null));
  const slots = ["pending", "partial"].map((slot) => {
    if (parts[slot] === null) return null;
    const box = given(`${slot} chunk's digest`, parts[slot]);
    if (chunkPlace.slot !== slot) return box;
    return { ...box, name: `${slot} chunk, ${bitOf(chunk, parts)}`, fields: [...box.fields, ...from(parts.bits)] };
  });
  const root = { kind: "trusted", name: "root", detail: shortened(question.root) };
  steps.push(step(root, given("operations root", parts.operationsRoot), slots));
  return steps;
}

/* The drawing */

const BOX = { width: 240, height: 44 };
const PITCH = 72;
// the middles of the columns, and where a line goes up between two of them
const COLUMNS = { left: 130, middle: 410, right: 690 };
const GAPS = { left: 270, right: 550 };
const SPACE = 8;

function element(name, attributes, text = "") {
  const drawn = document.createElementNS("http://www.w3.org/2000/svg", name);
  Object.entries(attributes).forEach(([key, value]) => drawn.setAttribute(key, value));
  drawn.textContent = text;
  return drawn;
}

function boxAt(x, y, { kind, name, detail, fields = [] }, mark = "") {
  const group = element("g", fields.length > 0 ? { "data-fields": fields.join(" "), tabindex: 0 } : {});
  const corner = { x: x - BOX.width / 2, y, width: BOX.width, height: BOX.height, rx: 6 };
  group.append(element("rect", { ...corner, class: `${kind} ${mark}` }));
  group.append(element("text", { x, y: detail ? y + 18 : y + 27 }, name));
  if (detail) group.append(element("text", { x, y: y + 36, class: "digest" }, detail));
  return group;
}

/** The steps as a picture, the root at its top. */
function drawingOf(steps, isYes) {
  const lines = [];
  const boxes = [];
  let y = SPACE;
  for (const { result, left, right } of [...steps].reverse()) {
    boxes.push(boxAt(COLUMNS.middle, y, result, result.kind === "trusted" ? (isYes ? "yes" : "no") : ""));
    const rows = Math.max(1, left.length, right.length);
    for (const [side, items] of Object.entries({ left, right })) {
      items.forEach((item, row) => {
        const top = y + (row + 1) * PITCH;
        lines.push(`M${COLUMNS[side]} ${top + 12}H${GAPS[side]}V${y + BOX.height - 12}H${COLUMNS.middle}`);
        boxes.push(boxAt(COLUMNS[side], top, item));
      });
    }
    lines.push(`M${COLUMNS.middle} ${y + BOX.height}v${rows * PITCH - BOX.height}`);
    y += rows * PITCH;
  }
  lines.pop();
  const height = y - PITCH + BOX.height + SPACE;
  const picture = element("svg", { viewBox: `0 0 820 ${height}`, width: 820, height, role: "img" });
  picture.append(element("title", {}, "The path from what is claimed up to the root"), element("path", { d: lines.join("") }), ...boxes);
  return picture;
}

/* The bytes */

/** How many colours the fields take in turn. */
const HUES = 6;

/** The bytes of a proof, field by field. */
function bytesOf({ fields }, proof) {
  return fields.map(({ name, from, to }, place) => {
    const shown = document.createElement("span");
    shown.className = `field hue${place % HUES}`;
    shown.dataset.fields = from;
    shown.dataset.name = `${name}: ${to - from === 1 ? `byte ${from}` : `bytes ${from} to ${to - 1}`} of ${proof.length}`;
    shown.tabIndex = 0;
    shown.textContent = hexadecimalOf(proof.subarray(from, to));
    return shown;
  });
}

/** Lights what a box or a field of bytes goes with, in the drawing and in the bytes, and names the fields; of null nothing. */
function light(chosen) {
  const fields = chosen ? chosen.dataset.fields.split(" ") : [];
  const names = [];
  for (const it of document.querySelectorAll("#path [data-fields]")) {
    const isLit = it.dataset.fields.split(" ").some((field) => fields.includes(field));
    it.classList.toggle("lit", isLit);
    if (isLit && it.dataset.name) names.push(it.dataset.name);
  }
  document.getElementById("named").textContent = names.join("; ") || "Point at a box or at bytes to see what goes with them.";
}
