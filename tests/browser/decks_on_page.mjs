// Decks on the page itself, as a reader runs them: each is opened by a link, run by the button, and what stands on the page
// is compared with what must come of it.
import zlib from 'zlib';
import { afterwards, linesOf, ofFile, ofFolder, unitsOf } from './cases.mjs';

// So much of a unit the page shows whole.
const SHOWN = 200000;
const BATCH = 40;
// How often it is looked whether a run has ended.
const LONG = 10000;

// In the page: opens a link and runs its deck; what stands there then. Lines of faults come a moment after the run.
async function opened({ hash, lines }, LONG) {
  const of = (id) => document.getElementById(id), state = document.body.dataset;
  const pause = (ms) => new Promise((done) => setTimeout(done, ms)), until = async (is) => { for (let n = 0; !is(); n++) { if (n > LONG) throw new Error('nothing comes'); await pause(4); } };
  const waits = 'waits for a link';
  of('deck').value = waits;
  of('faults').replaceChildren();
  // The address is replaced, so that no thousands of pages are kept to go back to. Browsers leave that out, or refuse it, where
  // it is done more often than some times a second.
  for (let n = 0; of('deck').value === waits && n < LONG; n++) {
    if (n % 50 === 0) {
      try { history.replaceState(null, '', `#${hash}`); } catch { /* too often */ }
      if (location.hash === `#${hash}`) dispatchEvent(new HashChangeEvent('hashchange'));
    }
    await pause(4);
  }
  of('run').click();
  await until(() => state.state === 'ended' && state.works === '');
  for (let n = 0; !lines.every((line) => of('faults').textContent.includes(line)) && n < LONG; n++) await pause(4);
  const units = {};
  for (let n = 0; n < of('outputs').childElementCount; n++) {
    of('outputs').children[n].click();
    const [, unit, count] = /^Unit (\d+)(?: · ([\d,]+) bytes)?/.exec(of('outputs').children[n].textContent);
    await pause(40);
    await new Promise((done) => requestAnimationFrame(() => requestAnimationFrame(done)));
    units[unit] = { count: Number((count ?? '0').replace(/,/g, '')), text: of('printed').firstChild?.textContent ?? '' };
  }
  return { status: state.status, same: state.same, end: of('end').textContent, faults: of('faults').textContent, units };
}

// What the page says of an ending; of a refused deck what stands under the editor.
function said(told) {
  const line = told.trim(), error = /^error (E\d+) statement (\d+) card (\d+)/.exec(line), limit = /^stlimit statement (\d+) card (\d+)/.exec(line), unit = /^unit (\d+) U(\d)/.exec(line);
  if (error) return `Ended by error ${error[1]} in statement ${error[2]}, card ${error[3]}.`;
  if (limit) return `Ended by &STLIMIT before statement ${limit[1]}, card ${limit[2]}.`;
  if (unit) return `Unit ${unit[1]} ${unit[2] === '1' ? 'is not open that way' : 'failed'}.`;
  if (line === 'steps used up') return 'The steps are used up.';
  return line ? line : 'Ended normally.';
}

function differs(given, { failed, status, same, end, faults, units }) {
  if (failed) return failed;
  const told = String(given.told);
  if (Number(status) !== given.status) return `status ${status}, not ${given.status}`;
  if (same === 'false') return 'page_run hands over something else';
  if (given.status === 3) {
    const missing = linesOf(given).find((line) => !faults.includes(line));
    return missing ? `does not tell ${missing}` : '';
  }
  if (!end.startsWith(said(told))) return `says ${end}`;
  for (const [unit, bytes] of afterwards(given)) {
    const { count, text } = units[unit] ?? { count: 0, text: '' };
    const is = units[unit] || unit === 6;
    const held = unitsOf(given).find(([other]) => other === unit)?.[1];
    if (!is && bytes.equals(held)) continue;
    if (count !== bytes.length) return `unit ${unit} has ${count} bytes, not ${bytes.length}`;
    const must = new TextDecoder().decode(bytes);
    if (text !== must.slice(0, SHOWN)) return `unit ${unit} shows something else`;
  }
  return '';
}

// Whether a field of the page can hold this: it has no bytes, but letters, and no carriage returns.
const canBeTyped = (bytes) => Buffer.from(String(bytes)).equals(bytes) && !bytes.includes(13);

function hashOf(given) {
  const units = unitsOf(given).filter(([unit, , only]) => unit !== 6 || only !== 2).map(([unit, bytes, only]) => [unit, String(bytes), only]);
  const held = { deck: String(given.deck), units, steps: Math.min(Number(given.steps), Number.MAX_SAFE_INTEGER) };
  return zlib.deflateRawSync(JSON.stringify(held)).toString('base64url');
}

export async function decksOnPage({ b, name, check, settled, open }, page, folder, cases) {
  await open(page);
  await settled();
  const all = [...ofFile(cases), ...ofFolder(folder)].filter(({ deck }) => deck), typed = all.filter((each) => [each.deck, ...unitsOf(each).map(([, bytes]) => bytes)].every(canBeTyped));
  check('there are 2,000 decks to run on the page', typed.length >= 2000, typed.length);
  const began = Date.now();
  let proved = 0;
  for (let n = 0; n < typed.length; n += BATCH) {
    const part = typed.slice(n, n + BATCH);
    const found = await b.value(`(async () => { const opened = ${opened}, found = []; for (const each of ${JSON.stringify(part.map((each) => ({ hash: hashOf(each), lines: linesOf(each) })))}) found.push(await opened(each, ${LONG}).catch((error) => ({ failed: String(error) }))); return found; })()`);
    proved += found.filter(({ same }) => same === 'true').length;
    part.forEach((each, m) => { const what = differs(each, found[m]); check(`${each.name} on the page: ${what}`, !what); });
  }
  check('page_run hands over the same of 1,000 of them', proved >= 1000, proved);
  console.log(`${name}: ${typed.length} decks on the page in ${Math.round((Date.now() - began) / 1000)} s, page_run handed over the same of ${proved}, ${all.length - typed.length} left out that no one can type`);
}
