// What the page's script makes of decks: node script.mjs WASM FOLDER
//
// Of each deck of tests/decks the statements that page/deck.js finds are those of the listing, and the deck that tells of each
// statement prints and ends as the deck itself, unless the deck looks at what that changes.
import fs from 'fs';
import { readListing, statements, telling, variables } from '../../page/deck.js';
import { decksOf, read } from './cases.mjs';
import { listed, load, watched } from './module.mjs';

const [wasm, folder] = process.argv.slice(2);
load(wasm);
// Its label leaves no room in a statement for what tells of it.
const KNOWN = /^labels\/a_label_of_3996_bytes\.sno$/;
const STEPS = 3000000, TELLER = 98;

function run(deck, input, others, steps) {
  const lines = [], units = [[5, input, 1], [6, Buffer.alloc(0), 2], ...others.map((unit) => [unit, Buffer.alloc(0), 2])];
  const { status, told } = watched(deck, units, steps, (unit, bytes) => { if (unit !== TELLER) lines.push(`${unit} ${bytes.toString('latin1')}\n`); });
  return { status, text: lines.join(''), ending: told.toString('latin1').replace(/ statement .*/s, '').trim() };
}

let passed = 0, failed = 0, left = 0;
for (const { name, base } of decksOf(folder)) {
  const deck = read(base + '.sno');
  if (fs.existsSync(base + '.cmd') || fs.existsSync(base + '.words') || deck.length > 200000 || deck.some((byte) => byte > 127)) { left++; continue; }
  const text = String(deck), { status, text: listing } = listed(deck);
  if (status !== 0) { left++; continue; }
  const found = statements(text), cards = readListing(listing).cards;
  const same = cards.every(({ first, last, card }) => !first || found.slice(first - 1, last).every((each) => each.card === card)) && Math.max(0, ...cards.map((card) => card.last)) === found.length;
  if (!same) { failed++; console.log(`${name}: other statements than the listing's`); continue; }
  passed++;
  const plain = run(deck, read(base + '.in'), [], STEPS), other = telling(text, TELLER, variables(text).slice(0, 6));
  if (!other || KNOWN.test(name) || plain.ending === 'steps used up') { left++; continue; }
  const second = run(Buffer.from(other), read(base + '.in'), [TELLER], 40 * STEPS);
  if (second.text === plain.text && second.status === plain.status && second.ending === plain.ending) passed++;
  else { failed++; console.log(`${name}: the deck that tells of its statements ends with ${second.status} ${second.ending}, not with ${plain.status} ${plain.ending}, or prints something else`); }
}
console.log(`${passed} passed, ${failed} failed, ${left} left out`);
process.exit(failed ? 1 : 0);
