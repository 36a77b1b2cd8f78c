// Asks the proved checks what the form says, and draws the path that a check goes.
"use strict";

/* The checks */

// a memory of 64 bits, of one page: what a browser takes that has wasm64
const WITH_MEMORY_OF_64_BITS = new Uint8Array([0, 0x61, 0x73, 0x6d, 1, 0, 0, 0, 5, 3, 1, 4, 1]);
const hasWasm64 = WebAssembly.validate(WITH_MEMORY_OF_64_BITS);
const packaged = import("./gawerunoa.js");

async function loaded() {
  return (await packaged).load();
}

let loading = loaded();
loading.catch(() => {});

/* What is asked */

const MOST_U64 = 2n ** 64n - 1n;
const FAMILIES = ["mmr", "mmb"];
const HASHES = ["sha256", "sha512"];
// the fields of each claim
const ASKED = {
  operation: ["location", "operation"],
  value: ["keys", "values", "key", "value"],
  absence: ["keys", "values", "size", "key"],
};
const ALWAYS = ["claim", "family", "hash", "chunk", "root", "proof"];
const NAMES = [...new Set([...ALWAYS, ...Object.values(ASKED).flat()])];

/** A field that says nothing that can be asked. */
class Refusal extends Error {
  constructor(field, message) {
    super(message);
    this.field = field;
  }
}

const squeezed = (text) => text.replace(/\s+/g, "").replace(/^0x/i, "");
const isHexadecimal = (text) => text.length % 2 === 0 && !/[^0-9a-f]/i.test(text);

function bytesIn(field) {
  const text = squeezed(field.value);
  if (!isHexadecimal(text)) throw new Refusal(field, `The ${field.name} is no hexadecimal text: two of 0 to 9 and a to f for each byte.`);
  return Uint8Array.from({ length: text.length / 2 }, (_, it) => parseInt(text.slice(2 * it, 2 * it + 2), 16));
}

function numberIn(field, what) {
  const text = field.value.trim();
  if (!/^[0-9]{1,20}$/.test(text) || BigInt(text) > MOST_U64) throw new Refusal(field, `${what} is no number from 0 to 2^64 - 1.`);
  return BigInt(text);
}

/** Of a claim of a key: the kind of the keys, the encoding of the values, and the size of values where these have one. */
function databaseIn({ keys, values, size }, claim) {
  if (keys.value === "strings" && values.value === "fixed") throw new Refusal(values, "Fixed values go with keys of one size.");
  const named = { keys: keys.value, values: values.value };
  return claim === "absence" && values.value !== "variable" ? { ...named, size: numberIn(size, "The size of a value") } : named;
}

function questionIn(fields) {
  const claim = fields.claim.value;
  const question = {
    claim,
    family: Number(fields.family.value),
    hash: Number(fields.hash.value),
    chunk: numberIn(fields.chunk, "The size of a chunk"),
    root: bytesIn(fields.root),
    proof: bytesIn(fields.proof),
  };
  const more = { operation: () => ({ location: numberIn(fields.location, "The location"), operation: bytesIn(fields.operation) }) };
  more.value = () => ({ ...databaseIn(fields, claim), key: bytesIn(fields.key), value: bytesIn(fields.value) });
  more.absence = () => ({ ...databaseIn(fields, claim), key: bytesIn(fields.key) });
  return { ...question, ...more[claim]() };
}

/** Whether the check accepts. */
function answerTo(checks, { Values, ANY_LENGTH }, question) {
  const { claim, chunk, keys, values, size, ...rest } = question;
  const agreed = { ...rest, chunkSize: chunk };
  if (claim === "operation") return checks.checkOperation(agreed);
  Object.assign(agreed, { values: Values[values.toUpperCase()], keyLengths: keys === "strings" ? ANY_LENGTH : undefined });
  if (claim === "value") return checks.checkValue(agreed);
  return checks.checkAbsence({ ...agreed, valueLengths: size === undefined ? ANY_LENGTH : [size, size] });
}

/* The page */

const OPERATION_PROOF = [
  "03080800031418e156d167cd87e7d322c7c35a8f70bcef006b2040f63b632363a8f42ef9bc8c3e97d7af8150ddd0347a",
  "1f2431e6790fff938adba6f5af1113eb4158edcee111f04e94983e1a14ff617712266417a3215bfa1c65833ad4680314",
  "1b6e990b8800e1df8e614a2512509b4d11a7b6f3ff877df67d3fb3a807260cd60d115d23f191",
].join("");
const SNAPSHOT = {
  family: "mmr",
  hash: "sha256",
  chunk: "1",
  root: "157b0c513ca1eb207e2085404d92e38a0c6a9b8b2f50a5d115dce7c3dac0fcf1",
};
const DATABASE = { ...SNAPSHOT, keys: "one size", values: "fixed" };
// the same update of key 00000006 to the value 3, whose next key is 00000008
const EXAMPLES = {
  operation: { ...SNAPSHOT, location: "3", operation: "d20000000600000000000000030000000800", proof: OPERATION_PROOF },
  value: { ...DATABASE, key: "00000006", value: "0000000000000003", proof: `${OPERATION_PROOF}00000008` },
  absence: { ...DATABASE, size: "8", key: "00000007", proof: `00${OPERATION_PROOF}00000006000000000000000300000008` },
};
const SAYS = {
  operation: "the operation stands at this location and is active",
  value: "the key has this value, where the snapshot is well-formed",
  absence: "the key has no value, where the snapshot is well-formed",
};
const meaningOf = ({ claim }) => [
  `Of each snapshot with this root, made with this family, digest function and chunk size: ${SAYS[claim]}.`,
  "Or two different byte strings have one digest, one hashed by this check, the other by the calculation of the root.",
].join(" ");
const NO_MEANING = "These bytes do not show it. A no says nothing else of the snapshot.";

const form = document.getElementById("question");
const fields = form.elements;

function show(kind, title, text) {
  const section = document.getElementById("answer");
  section.className = kind;
  section.hidden = false;
  section.querySelector("h2").textContent = title;
  section.querySelector("p").textContent = text;
}

function clear() {
  document.getElementById("answer").hidden = true;
  document.getElementById("path").hidden = true;
  document.getElementById("drawing").replaceChildren();
  document.getElementById("bytes").replaceChildren();
  [...fields].forEach((it) => it.removeAttribute("aria-invalid"));
  const names = ASKED[fields.claim.value];
  for (const it of form.querySelectorAll("[data-for]")) it.hidden = !names.includes(it.dataset.for);
  document.getElementById("link").href = `#${new URLSearchParams(named())}`;
}

/** The fields of the claim, by the names that a link and a file have for them. */
function named() {
  const text = (name) => ({ family: FAMILIES, hash: HASHES }[name]?.[fields[name].value] ?? fields[name].value.trim());
  return [...ALWAYS, ...ASKED[fields.claim.value]].map((name) => [name, text(name)]);
}

function draw(question, isYes) {
  const drawing = document.getElementById("drawing");
  try {
    const parts = partsOf(question);
    document.getElementById("bytes").replaceChildren(...bytesOf(parts, question.proof));
    drawing.replaceChildren(drawingOf(stepsOf(question, parts), isYes));
  } catch (error) {
    if (!(error instanceof RangeError)) throw error;
    drawing.textContent = `No path can be read from the proof: ${error.message}.`;
  }
  light(null);
  document.getElementById("path").hidden = false;
}

/** Why there is no answer, in plain words. */
function fault(error, { OutOfMemory, Refused }) {
  if (error instanceof OutOfMemory) return show("other", "No answer", "Memory ran out. This says nothing of what is claimed.");
  if (error instanceof Refused) return show("other", "No answer", `This can be part of no question: ${error.message}.`);
  // what the module has in its memory may be anything now: the next check has a new one
  loading = loaded();
  loading.catch(() => {});
  return show("other", "No answer", `The check did not end: ${error.message}.`);
}

async function check() {
  clear();
  if (!hasWasm64) return show("other", "No answer", document.getElementById("lack").textContent.trim());
  const library = await packaged;
  try {
    const question = questionIn(fields);
    const isYes = answerTo(await loading, library, question);
    show(isYes ? "yes" : "no", isYes ? "Yes" : "No", isYes ? meaningOf(question) : NO_MEANING);
    return draw(question, isYes);
  } catch (error) {
    if (!(error instanceof Refusal)) return fault(error, library);
    error.field.setAttribute("aria-invalid", "true");
    return show("refused", "Not asked", error.message);
  }
}

/** Fills in the fields that have a name here. */
function fillIn(given) {
  for (const [name, value] of Object.entries(given)) {
    const numbers = { family: FAMILIES, hash: HASHES }[name];
    const text = String(value);
    if (numbers?.includes(text)) fields[name].value = String(numbers.indexOf(text));
    else if (NAMES.includes(name)) fields[name].value = text;
  }
  clear();
}

async function fillInFrom(file) {
  const bytes = new Uint8Array(await file.arrayBuffer());
  const text = new TextDecoder().decode(bytes);
  let given = null;
  try {
    given = JSON.parse(text);
  } catch {
    // no JSON: a proof
  }
  if (given !== null && typeof given === "object") fillIn(given.in ?? given);
  else fillIn({ proof: isHexadecimal(squeezed(text)) ? squeezed(text) : hexadecimalOf(bytes) });
}

/** Asks what the address says behind its #, which no browser sends. */
function askLinked() {
  const given = Object.fromEntries(new URLSearchParams(location.hash.slice(1)));
  if (!(given.claim in ASKED)) return;
  fillIn(given);
  check();
}

form.addEventListener("submit", (event) => {
  event.preventDefault();
  check();
});
form.addEventListener("input", clear);
document.getElementById("example").addEventListener("click", () => fillIn(EXAMPLES[fields.claim.value]));
document.getElementById("file").addEventListener("change", async ({ target }) => {
  if (target.files.length > 0) await fillInFrom(target.files[0]);
  // the same file may be chosen again
  target.value = "";
});
for (const name of ["dragover", "dragleave", "drop"]) {
  document.addEventListener(name, (event) => {
    event.preventDefault();
    form.classList.toggle("over", name === "dragover");
    if (name === "drop" && event.dataTransfer.files.length > 0) fillInFrom(event.dataTransfer.files[0]);
  });
}
for (const name of ["pointerover", "focusin"]) {
  document.getElementById("path").addEventListener(name, ({ target }) => light(target.closest("[data-fields]")));
}
window.addEventListener("hashchange", askLinked);
document.getElementById("lack").hidden = hasWasm64;
clear();
askLinked();
