// Siodlomil in a browser or in node, over siodlomil.wasm (`tools/archive wasm32`). What each call is lent, answers and writes
// is told function by function in include/siodlomil.h; the names, room_left as roomLeft, the order of the arguments and the
// refusals are the same.
//
//     import { load, MAP_ROWS } from "./siodlomil.mjs";
//     const siodlomil = await load(await (await fetch("siodlomil.wasm")).arrayBuffer());
//     const answer = siodlomil.map(image, new BigUint64Array(MAP_ROWS));
//
// Images and rooms for them are Uint8Array, maps BigUint64Array, ids Uint16Array, room left BigInt64Array. A call works on
// copies in the module's own memory and copies back what it was lent to write, so a refused call leaves every buffer as it was,
// and one buffer may be lent twice.

export const TABLE_BYTES = 11776;
export const PATCH_BYTES = 23040;
export const MAP_ROWS = 64;
export const CHAIN_IDS = 64;
export const ROOM_FIGURES = 64;

// The word for each number of a reason; a refused call has reason 0.
export const REASONS = ["", "transaction", "jitter", "response", "priority", "pair", "timing"];

const PAGE_BYTES = 65536;
const ALIGNED = 8;
const LONGEST_ANSWER = 40; // 36 bytes, and what keeps the buffers behind them aligned

// The fields of each answer, 32 bits each.
const FIELDS = {
  map: ["number", "place"],
  bounds: ["number", "place", "tasks", "chain", "path", "transactions", "levels", "length"],
  bounds_within: ["number", "place", "tasks", "chain", "path", "transactions", "levels", "length", "opened"],
  room_left: ["number", "place"],
  chain_through: ["number", "place", "weight", "length"],
  reason: ["number", "place", "reason"],
  patch: ["number", "place", "touched", "length"],
  reverse: ["number", "place", "length"],
};

// Sees that each buffer is of the type that the call takes.
function check(call, buffers, types) {
  buffers.forEach((buffer, k) => {
    if (!(buffer instanceof types[k])) {
      throw new TypeError(`siodlomil.${call}: buffer ${k + 1} has to be a ${types[k].name}`);
    }
  });
}

// Sees that an id, a reserve or a limit is a number of 32 bits, which the module would otherwise cut it to.
function checkNumber(call, number) {
  if (!Number.isInteger(number) || number < 0 || 4294967295 < number) {
    throw new RangeError(`siodlomil.${call}: ${number} is no number from 0 to 4294967295`);
  }
}

// The bytes of a buffer.
function bytesOf(buffer) {
  return new Uint8Array(buffer.buffer, buffer.byteOffset, buffer.byteLength);
}

// Lays buffers out in the module's memory, behind the room for an answer, and copies them in; answers their places.
function lend(memory, start, buffers) {
  const places = [];
  let end = start + LONGEST_ANSWER;
  for (const buffer of buffers) {
    places.push(end);
    end += Math.ceil(buffer.byteLength / ALIGNED) * ALIGNED;
  }
  if (memory.buffer.byteLength < end) {
    memory.grow(Math.ceil((end - memory.buffer.byteLength) / PAGE_BYTES));
  }
  buffers.forEach((buffer, k) => new Uint8Array(memory.buffer).set(bytesOf(buffer), places[k]));
  return places;
}

// A pointer and a length for each buffer, as the module takes them, with numbers before the buffers that are written, which
// are all from the one at `written` on, and the last numbers behind them.
function words(buffers, places, written, numbers, last = []) {
  const pointers = buffers.map((buffer, k) => [places[k], BigInt(buffer.length)]);
  return [...pointers.slice(0, written).flat(), ...numbers, ...pointers.slice(written).flat(), ...last];
}

// Loads the module from its bytes.
export async function load(bytes) {
  const { instance } = await WebAssembly.instantiate(bytes);
  const { memory, __heap_base, ...functions } = instance.exports;
  const answerAt = Math.ceil(__heap_base.value / ALIGNED) * ALIGNED;

  // Calls a function whose answer is more than 8 bytes, which it writes through its first argument; then copies back what it
  // was lent to write, all buffers from the one at `written` on.
  function call(name, buffers, written, numbers = [], last = []) {
    const places = lend(memory, answerAt, buffers);
    functions[`siodlomil_${name}`](answerAt, ...words(buffers, places, written, numbers, last));
    copyBack(buffers, places, written);
    return new DataView(memory.buffer, answerAt, LONGEST_ANSWER);
  }

  // The same for a function whose answer is 8 bytes, which it answers as one number.
  function callShort(name, buffers, written, numbers = []) {
    const places = lend(memory, answerAt, buffers);
    const answer = functions[`siodlomil_${name}`](...words(buffers, places, written, numbers));
    copyBack(buffers, places, written);
    const view = new DataView(new ArrayBuffer(8));
    view.setBigInt64(0, answer, true);
    return view;
  }

  function copyBack(buffers, places, written) {
    for (let k = written; k < buffers.length; k++) {
      bytesOf(buffers[k]).set(new Uint8Array(memory.buffer, places[k], buffers[k].byteLength));
    }
  }

  // The answer as an object: a field for each 32 bits.
  function fields(name, view) {
    return Object.fromEntries(FIELDS[name].map((field, k) => [field, view.getUint32(4 * k, true)]));
  }

  return {
    map(image, map) {
      check("map", [image, map], [Uint8Array, BigUint64Array]);
      return fields("map", callShort("map", [image, map], 1));
    },
    bounds(image, map, ids) {
      check("bounds", [image, map, ids], [Uint8Array, BigUint64Array, Uint16Array]);
      return fields("bounds", call("bounds", [image, map, ids], 2));
    },
    boundsWithin(image, map, ids, limit) {
      check("boundsWithin", [image, map, ids], [Uint8Array, BigUint64Array, Uint16Array]);
      checkNumber("boundsWithin", limit);
      return fields("bounds_within", call("bounds_within", [image, map, ids], 2, [], [limit]));
    },
    roomLeft(image, map, reserve, room) {
      check("roomLeft", [image, map, room], [Uint8Array, BigUint64Array, BigInt64Array]);
      checkNumber("roomLeft", reserve);
      return fields("room_left", callShort("room_left", [image, map, room], 2, [reserve]));
    },
    chainThrough(image, map, id, ids) {
      check("chainThrough", [image, map, ids], [Uint8Array, BigUint64Array, Uint16Array]);
      checkNumber("chainThrough", id);
      return fields("chain_through", call("chain_through", [image, map, ids], 2, [id]));
    },
    reason(image, low, high) {
      check("reason", [image], [Uint8Array]);
      [low, high].forEach((id) => checkNumber("reason", id));
      return fields("reason", call("reason", [image], 1, [low, high]));
    },
    patch(base, patch, baseMap, room, newMap) {
      const buffers = [base, patch, baseMap, room, newMap];
      check("patch", buffers, [Uint8Array, Uint8Array, BigUint64Array, Uint8Array, BigUint64Array]);
      return fields("patch", call("patch", buffers, 3));
    },
    reverse(patch, room) {
      check("reverse", [patch, room], [Uint8Array, Uint8Array]);
      return fields("reverse", call("reverse", [patch, room], 1));
    },
    offending(base, patch) {
      check("offending", [base, patch], [Uint8Array, Uint8Array]);
      const view = call("offending", [base, patch], 2);
      return { at: Number(view.getBigUint64(0, true)), length: Number(view.getBigUint64(8, true)) };
    },
  };
}
