// Uses the page and the site in a browser: node drive.mjs chromium|firefox PROGRAM PAGE SITE DECKS CASES [SHOTS]
//
// DECKS is a folder as tests/decks, and CASES a list as tests/browser/cases.mjs reads it. Each thing that isn't as it must be
// is reported in a line; the last line is `N passed, M failed`.
import { decksOnPage } from './decks_on_page.mjs';
import { hands } from './hands.mjs';
import { byKeys, endless, looks, usePage } from './use.mjs';
import { useSite } from './site.mjs';

const [name, program, page, site, folder, cases, shots] = process.argv.slice(2);
const { open } = await import(`./${name}.mjs`);
const b = await open(program), t = hands(b, name, shots);
await usePage(t, page, cases);
await byKeys(t, page);
await endless(t, page);
await looks(t, page);
await decksOnPage(t, page, folder, cases);
await useSite(t, site);
const others = b.asked.filter((url) => !/^(file|data|blob|about|chrome|moz-extension):/.test(url));
t.check('no other host is asked', others.length === 0, others.join(' '));
t.check('no script failed', b.errors.length === 0, b.errors.join(' | '));
await b.close();
console.log(`${t.counts.passed} passed, ${t.counts.failed} failed`);
process.exit(t.counts.failed ? 1 : 0);
