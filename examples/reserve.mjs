// The stack reserve of a task table before a patch, after it, and with it taken off again; and what refusals look like:
//
//     node examples/reserve.mjs MODULE TABLE PATCH OTHER
//
// does over siodlomil.wasm what examples/reserve.c does over the archive, and prints the same.
import { readFileSync } from "node:fs";
import { load, CHAIN_IDS, MAP_ROWS, PATCH_BYTES, REASONS, ROOM_FIGURES, TABLE_BYTES } from "../page/siodlomil.mjs";

if (process.argv.length !== 6) {
  console.error("usage: reserve MODULE TABLE PATCH OTHER");
  process.exit(1);
}
const [siodlomilModule, beforeImage, first, other] = process.argv.slice(2).map((path) => new Uint8Array(readFileSync(path)));
const siodlomil = await load(siodlomilModule);

// Prints how a call ended, and returns whether it was accepted.
function isAccepted(call, { number, place }) {
  console.log(number === 0 ? `${call}: accepted` : `${call}: refused ${number} at ${place}`);
  return number === 0;
}

// A task of figure 2 outside the chain that reaches its reserve.
const ASKED = 21;

// Prints how many bytes each of the first tasks may grow until a chain through it weighs this much; less than 0 where one
// weighs more already.
function printRoom({ image, map }, reserve, whom, tasks) {
  const room = new BigInt64Array(ROOM_FIGURES);
  if (siodlomil.roomLeft(image, map, reserve, room).number === 0) {
    console.log([`  room left of ${reserve}${whom}:`, ...room.subarray(0, tasks)].join(" "));
  }
}

// Prints what the heaviest chain through a task weighs, and its tasks.
function printThrough({ image, map }, id) {
  const ids = new Uint16Array(CHAIN_IDS);
  const { number, weight, length } = siodlomil.chainThrough(image, map, id, ids);
  if (number === 0) {
    console.log(`  the heaviest chain through ${id} weighs ${weight}: ${ids.subarray(0, length).join(" ")}`);
  }
}

// Prints the reserve of a table, the chain of tasks that reaches it with the reasons, the other bounds, what room is left of
// that reserve, of one byte less and of the largest there is, and a chain through another task.
function printReserve({ image, map }) {
  const ids = new Uint16Array(CHAIN_IDS);
  const answer = siodlomil.bounds(image, map, ids);
  if (!isAccepted("bounds", answer)) {
    return;
  }
  const chain = [...ids.subarray(0, answer.length)];
  console.log(`  reserve ${answer.chain}, chain ${chain.join(" ")}`);
  console.log(
    `  tasks ${answer.tasks}, path ${answer.path}, transactions ${answer.transactions}, levels ${answer.levels}`,
  );
  for (let k = 0; k + 1 < chain.length; k++) {
    const { reason } = siodlomil.reason(image, chain[k], chain[k + 1]);
    console.log(`  ${chain[k]} ${chain[k + 1]} ${REASONS[reason]}`);
  }
  printRoom({ image, map }, answer.chain, "", answer.tasks);
  if (answer.chain > 0) {
    printRoom({ image, map }, answer.chain - 1, "", answer.tasks);
    printRoom({ image, map }, 4294967295, " to the first task", 1);
  }
  printThrough({ image, map }, ASKED);
}

// Applies a patch to a base and returns the outcome with its map, or nothing.
function apply(call, base, patch) {
  const room = new Uint8Array(TABLE_BYTES);
  const map = new BigUint64Array(MAP_ROWS);
  const answer = siodlomil.patch(base.image, patch, base.map, room, map);
  if (!isAccepted(call, answer)) {
    return undefined;
  }
  console.log(`  touched ${answer.touched}, ${answer.length} bytes`);
  return { image: room.slice(0, answer.length), map };
}

// Takes a patch off again, prints the reserve then, and returns whether all is as it was before the patch.
function takeOff(before, after, patch) {
  const back = new Uint8Array(PATCH_BYTES);
  const answer = siodlomil.reverse(patch, back);
  if (!isAccepted("reverse", answer)) {
    return false;
  }
  console.log(`  ${answer.length} bytes`);
  const restored = apply("the reverse on the outcome", after, back.subarray(0, answer.length));
  if (restored === undefined) {
    return false;
  }
  printReserve(restored);
  return String(restored.image) === String(before.image) && String(restored.map) === String(before.map);
}

// Prints the record of a patch that is to be taken out though the base lacks it, if there is one.
function printOffending(base, patch) {
  const { at, length } = siodlomil.offending(base.image, patch);
  console.log(`  offending ${length} bytes at ${at}`);
  for (let line = at; line < at + length; line += 16) {
    console.log("    " + [...patch.subarray(line, line + 16)].map((byte) => byte.toString(16).padStart(2, "0")).join(" "));
  }
}

const before = { image: beforeImage, map: new BigUint64Array(MAP_ROWS) };
if (!isAccepted("map", siodlomil.map(before.image, before.map))) {
  process.exit(1);
}
printReserve(before);
const after = apply("patch", before, first);
if (after === undefined) {
  process.exit(1);
}
printReserve(after);
apply("the same patch on its outcome", after, first);
if (!takeOff(before, after, first)) {
  process.exit(1);
}
console.log("  table and map are as they were before the patch, byte for byte");
if (apply("the other patch", before, other) === undefined) {
  printOffending(before, other);
}
isAccepted("the reason of a task that is not listed", siodlomil.reason(before.image, 0, 0));
const through = siodlomil.chainThrough(before.image, before.map, 0, new Uint16Array(CHAIN_IDS));
isAccepted("the chain through a task that is not listed", through);
