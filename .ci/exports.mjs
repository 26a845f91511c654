// Sees that a WebAssembly module exports the functions that the header declares, its memory and where that is free, and that
// it imports nothing: node .ci/exports.mjs MODULE HEADER
import { readFileSync } from "node:fs";
import { load } from "../page/siodlomil.mjs";
import assert from "node:assert";

const [bytes, header] = process.argv.slice(2).map((path) => readFileSync(path));
const wasm = new WebAssembly.Module(bytes);
const declared = [...String(header).matchAll(/^(?:siodlomil_\w+_answer )?(siodlomil_\w+)\(/gm)].map(([, name]) => name);
assert.deepStrictEqual(WebAssembly.Module.imports(wasm), []);
assert.deepStrictEqual(
  WebAssembly.Module.exports(wasm).map(({ name }) => name).sort(),
  ["memory", "__heap_base", ...declared].sort(),
);

// The binding has a function for each, its words put together as JavaScript does, and refuses what the module would cut or take
// for something else.
const siodlomil = await load(bytes);
const inHeader = (name) => `siodlomil_${name.replace(/[A-Z]/g, (letter) => `_${letter.toLowerCase()}`)}`;
assert.deepStrictEqual(Object.keys(siodlomil).map(inHeader).sort(), declared.sort());
assert.throws(() => siodlomil.map([], new BigUint64Array(64)), TypeError);
assert.throws(() => siodlomil.reason(new Uint8Array(512), 4294967296 + 11, 12), RangeError);
const [image, map] = [new Uint8Array(512), new BigUint64Array(64)];
assert.throws(() => siodlomil.boundsWithin(image, map, new Int16Array(64), 0), TypeError);
assert.throws(() => siodlomil.boundsWithin(image, map, new Uint16Array(64), -1), RangeError);
assert.throws(() => siodlomil.boundsWithin(image, map, new Uint16Array(64), 4294967296), RangeError);
assert.throws(() => siodlomil.roomLeft(image, map, 0, new BigUint64Array(64)), TypeError);
assert.throws(() => siodlomil.roomLeft(image, map, -1, new BigInt64Array(64)), RangeError);
assert.throws(() => siodlomil.roomLeft(image, map, 4294967296, new BigInt64Array(64)), RangeError);
assert.throws(() => siodlomil.chainThrough(image, map, 4294967296 + 11, new Uint16Array(64)), RangeError);
