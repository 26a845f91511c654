// The stack reserve of task tables with a limit on the chains that the paper's Algorithm 1 opens:
//
//     node examples/within.mjs MODULE TABLE...
//
// does over siodlomil.wasm what examples/within.c does over the archive, and prints the same.
import { readFileSync } from "node:fs";
import { load, CHAIN_IDS, MAP_ROWS } from "../page/siodlomil.mjs";

if (process.argv.length < 4) {
  console.error("usage: within MODULE TABLE...");
  process.exit(1);
}
const [modulePath, ...tablePaths] = process.argv.slice(2);
const siodlomil = await load(readFileSync(modulePath));

// More chains than figure 2 opens, and the refusal where a limit does not suffice.
const MANY_CHAINS = 1000;
const GAVE_UP = 13;

// Prints the reserve that is found within so many opened chains and returns how many were opened; where they do not suffice,
// prints the bounds that are known all the same, and returns 0.
function printWithin({ image, map }, limit) {
  const ids = new Uint16Array(CHAIN_IDS);
  const { number, place, chain, path, transactions, opened } = siodlomil.boundsWithin(image, map, ids, limit);
  if (number === 0) {
    console.log(`within ${limit} chains: reserve ${chain}, opened ${opened}`);
  } else if (number === GAVE_UP) {
    console.log(`within ${limit} chains: refused ${number} at ${place}, path ${path}, transactions ${transactions}`);
  }
  return opened;
}

for (const tablePath of tablePaths) {
  const table = { image: new Uint8Array(readFileSync(tablePath)), map: new BigUint64Array(MAP_ROWS) };
  const { number, place } = siodlomil.map(table.image, table.map);
  if (number !== 0) {
    console.log(`map: refused ${number} at ${place}`);
    process.exit(1);
  }
  const opened = printWithin(table, MANY_CHAINS);
  if (opened > 0) {
    printWithin(table, opened - 1);
  }
}
