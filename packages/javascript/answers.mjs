// Answers each line of a text with yes, no or the error, by a loaded package. A line has a call and its arguments, blanks between them:
// numbers in decimal, byte strings in hexadecimal, lists of them with commas between; - stands for nothing.

const bytesOf = (word) => Uint8Array.from(word.match(/[0-9a-f]{2}/g) ?? [], (it) => parseInt(it, 16));
const listOf = (word) => (word === "-" ? [] : word.split(",").map(bytesOf));

function asked(checks, line) {
  const [call, ...words] = line.split(" ");
  const number = () => BigInt(words.shift());
  const string = () => bytesOf(words.shift());
  const agreed = { family: Number(words.shift()), hash: Number(words.shift()), chunkSize: number() };
  if (call === "operation") {
    return checks.checkOperation({ ...agreed, location: number(), proof: string(), operation: string(), root: string() });
  }
  if (call === "range") {
    const numbers = { maxDigests: number(), start: number() };
    const lists = { proof: string(), operations: listOf(words.shift()), chunks: listOf(words.shift()) };
    return checks.checkRange({ ...agreed, ...numbers, ...lists, root: string() });
  }
  if (call.startsWith("string_")) agreed.keyLengths = [number(), number()];
  agreed.values = call.replace("string_", "").replace(/value$|absence$/, "");
  if (call.endsWith("value")) {
    return checks.checkValue({ ...agreed, proof: string(), key: string(), value: string(), root: string() });
  }
  const least = number();
  agreed.valueLengths = [least, agreed.values === "" ? number() : least];
  return checks.checkAbsence({ ...agreed, proof: string(), key: string(), root: string() });
}

function answer(checks, line) {
  try {
    return asked(checks, line) ? "yes" : "no";
  } catch (error) {
    return error.message;
  }
}

export const answers = (checks, text) => text.trimEnd().split("\n").map((line) => `${answer(checks, line)}\n`).join("");
