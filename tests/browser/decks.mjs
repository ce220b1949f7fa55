// What the module gives for decks, beside what they must give.
//
//     node decks.mjs WASM FOLDER        the decks of tests/decks, with the files beside them (tests/README.md)
//     node decks.mjs WASM --cases FILE  a list of {name, deck, input, steps, out, told, status} as JSON
//
// Each is run by `page_watch` in pieces, and where it has units 5 and 6 alone by `page_run` too. What isn't as it must be is
// reported a line each; the last line is `N passed, M failed, K left out`.
import { afterwards, ofFile, ofFolder, unitsOf } from './cases.mjs';
import { handed, load, watched } from './module.mjs';

const [wasm, folder, list] = process.argv.slice(2);
load(wasm);

function differs(given) {
  const { deck, input, steps, files, out, told, status } = given, units = unitsOf(given), printed = new Map();
  const run = watched(deck, units, steps, (unit, bytes) => { if (!printed.has(unit)) printed.set(unit, []); printed.get(unit).push(Buffer.from(bytes), Buffer.from('\n')); });
  if (run.status !== status) return `status ${run.status}, not ${status}`;
  if (!run.told.equals(told)) return `tells ${run.told}`;
  const must = afterwards(given);
  for (const [unit, held] of units) {
    const now = printed.has(unit) ? Buffer.concat(printed.get(unit)) : held;
    if (!now.equals(must.get(unit) ?? held)) return `unit ${unit} has something else`;
  }
  if (files.length) return '';
  const whole = handed(deck, input, steps);
  if (whole.status !== status || !whole.told.equals(told) || !whole.out.equals(out)) return `page_run gives something else, status ${whole.status}`;
  return '';
}

let passed = 0, failed = 0, left = 0;
for (const each of folder === '--cases' ? ofFile(list) : ofFolder(folder)) {
  if (!each.deck) { left++; continue; }
  let what;
  try { what = differs(each); } catch (error) { what = String(error); }
  if (what) { failed++; console.log(`${each.name}: ${what}`.trim()); } else passed++;
}
console.log(`${passed} passed, ${failed} failed, ${left} left out`);
process.exit(failed ? 1 : 0);
