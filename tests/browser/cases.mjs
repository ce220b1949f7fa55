// Decks, with what they must give: those of a folder as tests/decks, and lists that tests/page writes.
//
// A case has a name, a deck, what is read from unit 5, the steps it may make, the files that it names for units, and what
// must come of it: `out` on unit 6, `told` on standard error, and the exit status. A name alone is left out.
import fs from 'fs';
import path from 'path';

export const read = (file) => fs.existsSync(file) ? fs.readFileSync(file) : Buffer.alloc(0);

// The words of a case: a bound on the steps, and files for units; nothing for other words.
function wordsOf(text) {
  const found = { steps: 1000000000n, files: [] };
  const words = text.trim().split(/\s+/).filter(Boolean);
  for (let n = 0; n < words.length; n++) {
    const bound = words[n] === '--steps' ? words[++n] : /^--steps=(\d+)$/.exec(words[n])?.[1], file = /^(\d+)=(\w[\w.]*)$/.exec(words[n]);
    if (bound !== undefined) found.steps = BigInt(bound);
    else if (file) found.files.push([Number(file[1]), file[2]]);
    else return null;
  }
  const names = found.files.map(([, name]) => name);
  return new Set(names).size === names.length && found.steps > 0n ? found : null;
}

// The decks of a folder, each with the beginning of the names of its files.
export function* decksOf(folder) {
  for (const subject of fs.readdirSync(folder).sort()) for (const file of fs.readdirSync(path.join(folder, subject)).sort())
    if (file.endsWith('.sno')) yield { name: `${subject}/${file}`, base: path.join(folder, subject, file.slice(0, -4)) };
}

export function* ofFolder(folder) {
  for (const { name, base } of decksOf(folder)) {
    const words = wordsOf(String(read(base + '.words')));
    // The page has no file that can't be opened.
    if (fs.existsSync(base + '.cmd') || !words || words.files.length && / U[23]$/m.test(String(read(base + '.told')))) { yield { name }; continue; }
    const files = words.files.map(([unit]) => ({ unit, held: read(`${base}.${unit}.in`), after: fs.existsSync(`${base}.${unit}`) ? read(`${base}.${unit}`) : null, is: fs.existsSync(`${base}.${unit}.in`) }));
    yield { name, deck: read(base + '.sno'), input: read(base + '.in'), steps: words.steps, files, out: read(base + '.out'), told: read(base + '.told'), status: Number(String(read(base + '.status')) || 0) };
  }
}

export function* ofFile(list) {
  for (const each of JSON.parse(fs.readFileSync(list, 'utf8'))) yield { ...each, ...Object.fromEntries(['deck', 'input', 'out', 'told'].map((key) => [key, Buffer.from(each[key])])), files: [] };
}

// The units of a case as the page has them, in rows of number, bytes and use: 0 where its first use decides, 1 where it is
// read, 2 where it is written. A file that isn't there can't be read.
export function unitsOf({ input, files }) {
  const own = new Set(files.map(({ unit }) => unit));
  return [...(own.has(5) ? [] : [[5, input, 1]]), ...(own.has(6) ? [] : [[6, Buffer.alloc(0), 2]]), ...files.map(({ unit, held, is }) => [unit, held, is ? 0 : 2])];
}

// What units must hold afterwards: of each that was written, and of unit 6.
export function afterwards({ out, files }) {
  const after = new Map(files.filter(({ after }) => after !== null).map(({ unit, after }) => [unit, after]));
  if (!files.some(({ unit }) => unit === 6)) after.set(6, out);
  return after;
}

// What the page says of a refused deck's first faults.
export const linesOf = ({ status, told }) => status === 3 ? String(told).trim().split('\n').slice(0, 50).map((line) => line.replace(/^card (\d+) /, 'Card $1, ')) : [];
