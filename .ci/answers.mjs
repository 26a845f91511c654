// Answers a stream of cases (docs/STREAM.md) as the test program `answers` does, but through the WebAssembly module and its
// binding: node .ci/answers.mjs MODULE
import { readFileSync } from "node:fs";
import { load, CHAIN_IDS } from "../page/siodlomil.mjs";

const siodlomil = await load(readFileSync(process.argv[2]));
const stream = readFileSync(0);
let at = 0;

// The next bytes of the stream, as a buffer of their own.
function take(Type, count) {
  const bytes = count * Type.BYTES_PER_ELEMENT;
  const buffer = new Type(stream.buffer.slice(stream.byteOffset + at, stream.byteOffset + at + bytes));
  at += bytes;
  return buffer;
}

function digest(buffer) {
  const bytes = new Uint8Array(buffer.buffer, buffer.byteOffset, buffer.byteLength);
  return bytes.reduce((sum, byte) => (sum * 65599 + byte + 1) % 4294967291, 1);
}

// The verdict on an image: what comes before 11 where nothing is lent to be written.
function verdict(answer) {
  return answer.number === 11 ? [0, 0] : [answer.number, answer.place];
}

const tableVerdict = (image) => verdict(siodlomil.map(image, new BigUint64Array(0)));
const patchVerdict = (patch) => verdict(siodlomil.reverse(patch, new Uint8Array(0)));

// The ids of an accepted table's tasks, in the order of its records.
function taskIds(image) {
  const ids = [];
  for (let block = 0; block < image.length; block += 512) {
    for (let record = block + 8; record < block + 8 + 32 * image[block + 4]; record += 32) {
      if (image[record] === 2) {
        ids.push(image[record + 2] + 256 * image[record + 3]);
      }
    }
  }
  return ids;
}

function reasons(image, ids) {
  const numbers = new Uint8Array(64 * 64);
  ids.forEach((low, i) => ids.forEach((high, j) => (numbers[64 * i + j] = siodlomil.reason(image, low, high).reason)));
  return [digest(numbers), ...[1, 2, 3, 4, 5, 6].map((number) => numbers.filter((one) => one === number).length)];
}

// A patch call: its numbers, and the part that offends.
function patched(base, patch, baseMap, room, newMap) {
  const answer = siodlomil.patch(base, patch, baseMap, room, newMap);
  const { at: start, length } = siodlomil.offending(base, patch);
  const { number, place, touched, length: bytes } = answer;
  return { answer, numbers: [number, place, touched, bytes, length], part: patch.subarray(start, start + length) };
}

// The numbers of a bound call, by their names.
function numbersOf({ number, place, tasks, chain, path, transactions, levels, length }) {
  return [number, place, tasks, chain, path, transactions, levels, length];
}

function standing({ image, map }) {
  const ids = new Uint16Array(CHAIN_IDS);
  const found = siodlomil.bounds(image, map, ids);
  return [digest(image), digest(map), ...numbersOf(found), ...ids.subarray(0, found.length), ...map.subarray(0, found.tasks)];
}

// Puts a patch to what stands, with so much lent, every byte 255; answers what stands then, and the numbers of the step.
function step(state, patch, roomBytes, newRows) {
  const room = new Uint8Array(roomBytes).fill(255);
  const map = new BigUint64Array(newRows).fill(0xffffffffffffffffn);
  const { answer, numbers, part } = patched(state.image, patch, state.map, room, map);
  const after = answer.number === 0 ? { image: room.slice(0, answer.length), map } : state;
  return [after, ["|", ...numbers, ...part, ...standing(after)]];
}

const calls = {
  T: (lent) => tableVerdict(take(Uint8Array, lent.image)),
  P: (lent) => patchVerdict(take(Uint8Array, lent.image)),
  M(lent) {
    const [image, map] = [take(Uint8Array, lent.image), take(BigUint64Array, lent.newRows)];
    return [...Object.values(siodlomil.map(image, map)), digest(map)];
  },
  B(lent) {
    const [image, map] = [take(Uint8Array, lent.image), take(BigUint64Array, lent.baseRows)];
    const ids = take(Uint16Array, lent.ids);
    return [...numbersOf(siodlomil.bounds(image, map, ids)), digest(ids)];
  },
  H(lent) {
    const [image, map] = [take(Uint8Array, lent.image), take(BigUint64Array, lent.baseRows)];
    const ids = take(Uint16Array, lent.ids);
    const found = siodlomil.boundsWithin(image, map, ids, lent.room); // the limit stands where the room of others does
    return [...numbersOf(found), found.opened, digest(ids)];
  },
  A(lent) {
    const [base, patch] = [take(Uint8Array, lent.image), take(Uint8Array, lent.patch)];
    const [baseMap, newMap] = [take(BigUint64Array, lent.baseRows), take(BigUint64Array, lent.newRows)];
    const room = take(Uint8Array, lent.room);
    const { numbers, part } = patched(base, patch, baseMap, room, newMap);
    return [...numbers, digest(part), digest(room), digest(newMap)];
  },
  G(lent) {
    const [image, map] = [take(Uint8Array, lent.image), take(BigUint64Array, lent.baseRows)];
    const [figures, ids] = [take(BigInt64Array, lent.newRows), take(Uint16Array, lent.ids)];
    const [reserve, id] = [lent.room, lent.steps]; // they stand where the last two lengths of other calls do
    const room = [...Object.values(siodlomil.roomLeft(image, map, reserve, figures)), digest(figures)];
    return [...room, "|", ...Object.values(siodlomil.chainThrough(image, map, id, ids)), digest(ids)];
  },
  V(lent) {
    const [patch, room] = [take(Uint8Array, lent.image), take(Uint8Array, lent.room)];
    return [...Object.values(siodlomil.reverse(patch, room)), digest(room)];
  },
  W(lent) {
    const [image, questions] = [take(Uint8Array, lent.image), take(Uint32Array, 2 * lent.baseRows)];
    const [number, place] = tableVerdict(image);
    const line = [number, place, ...reasons(image, number === 0 ? taskIds(image) : [])];
    for (let k = 0; k < questions.length; k += 2) {
      line.push("|", ...Object.values(siodlomil.reason(image, questions[k], questions[k + 1])));
    }
    return line;
  },
  R(lent) {
    let state = { image: take(Uint8Array, lent.image), map: take(BigUint64Array, lent.baseRows) };
    const line = standing(state);
    for (let k = 0; k < lent.steps; k++) {
      const [patchBytes, newRows, roomBytes] = take(Uint32Array, 3);
      let said;
      [state, said] = step(state, take(Uint8Array, patchBytes), roomBytes, newRows);
      line.push(...said);
    }
    return line;
  },
  U(lent) {
    const [image, patch] = [take(Uint8Array, lent.image), take(Uint8Array, lent.patch)];
    const before = { image, map: take(BigUint64Array, lent.baseRows) };
    const room = new Uint8Array(24576);
    const made = siodlomil.reverse(patch, room);
    const back = room.subarray(0, made.length);
    const [after, there] = step(before, patch, lent.room, lent.newRows);
    const [restored, backAgain] = step(after, back, lent.room, lent.newRows);
    const [, again] = step(restored, patch, lent.room, lent.newRows);
    return [...standing(before), ...there, "|", ...Object.values(made), digest(back), ...backAgain, ...again];
  },
};

const lines = [];
while (at + 32 <= stream.length) {
  const [call] = take(Uint8Array, 4);
  const [image, patch, baseRows, newRows, ids, room, steps] = take(Uint32Array, 7);
  const letter = String.fromCharCode(call);
  lines.push([letter, ...calls[letter]({ image, patch, baseRows, newRows, ids, room, steps })].join(" "));
}
process.stdout.write(lines.map((line) => line + "\n").join(""));
