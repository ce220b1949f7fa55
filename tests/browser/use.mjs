// The page, used as a reader uses it.
import { linesOf, ofFile } from './cases.mjs';
import { sleep } from './protocol.mjs';

const COUNTS = "* Counts.\nNEXT N = N + 1\n OUTPUT = N\n LT(N,5) :S(NEXT)\nEND\n";
const FAULTY = "* Some decks have faults.\n A = ARRAY(3)\n A[1] = 'x'\n OUTPUT = A+B\n OUTPUT = 'not closed\nEND\n";
const ENDLESS = " &STLIMIT = -1\nL OUTPUT = N ': the quick brown fox jumps over the lazy dog'\n N = N + 1 :(L)\nEND\n";
const printed = (text) => `document.getElementById('printed').textContent === ${JSON.stringify(text)}`;

async function begin({ b, open, settled }, page, [width, height, mobile] = [1300, 820, false]) {
  await b.size(width, height, mobile);
  await open(page);
  await settled();
}

export async function usePage(t, page, cases) {
  await begin(t, page);
  await theFirst(t);
  await choices(t, cases);
  await faults(t);
  await units(t);
  await profile(t);
  await trace(t);
  await links(t, page);
}

async function theFirst({ check, until, text, shot }) {
  check('the first deck prints its words', await until(printed('The\nquick\nbrown\nfox\n')), await text('printed'));
  check('page_run hands over the same', (await text('end')).includes('✓ as page_run'), await text('end'));
  check('statements and steps are counted', /6 statements.*91 steps/.test(await text('end')), await text('end'));
  await shot('first');
}

// Each deck that is offered runs, or is refused as `sno` refuses it.
async function choices({ b, check, click, ended, text, shot, until }, cases) {
  const known = new Map([...ofFile(cases)].map((each) => [String(each.deck), each]));
  const all = await b.value("[...document.querySelectorAll('.choice')].map((each) => each.textContent)");
  check('there are the decks of examples, tutorial and porting', all.length >= 30, all.length);
  await click('#decks');
  await shot('decks');
  for (let n = 0; n < all.length; n++) {
    await b.value(`(document.querySelectorAll('.choice button')[${n}].click(), true)`);
    const is = await ended(), deck = known.get(await b.value("document.getElementById('deck').value"));
    if (deck?.status === 3) {
      check(`${all[n]} is refused`, is && (await text('end')).startsWith('The deck is refused.') && await text('printed') === '', await text('end'));
      for (const line of linesOf(deck)) check(`with its fault ${line}`, await until(`document.getElementById('faults').textContent.includes(${JSON.stringify(line)})`), await text('faults'));
    } else check(`${all[n]} runs`, is && deck && /^Ended/.test(await text('end')), await text('end'));
    await click('#decks');
  }
  await b.value("(document.getElementById('chooser').close(), true)");
}

async function faults({ b, check, until, key, text, type, shot }) {
  await type('deck', FAULTY);
  check('faulty cards are marked as one types', await until("[...document.querySelectorAll('#gutter .bad')].map((each) => each.textContent).join() === '3,4,5'"));
  check('their causes are listed', (await text('faults')).includes('Card 3, statement 2 L1'), await text('faults'));
  await b.value("(document.getElementById('deck').setSelectionRange(0, 0), document.getElementById('deck').focus(), true)");
  await key('F8');
  check('F8 goes to the fault', await b.value("document.getElementById('deck').selectionStart") === 42, await b.value("document.getElementById('deck').selectionStart"));
  await shot('faults');
}

async function units({ b, check, click, ended, key, run, shot, text, type, until }) {
  await type('deck', "READ OUTPUT = 'Hello, ' INPUT :S(READ)\nEND\n"); await type('typed', 'Ada\nAlan\n');
  await b.value("(document.getElementById('deck').focus(), true)");
  await key('Enter', 2);
  check('Ctrl+Enter runs the deck on its records', await until(printed('Hello, Ada\nHello, Alan\n')), await text('printed'));
  await run(" PUNCH = 'a card'\n OUTPUT = 'printed'\nEND\n");
  check('a unit that is not open is told', (await text('end')).includes('Unit 7 is not open'), await text('end'));
  await click('#end button'); await ended();
  const tab = (name) => `[...document.querySelectorAll('#outputs button')].find((each) => each.textContent.startsWith(${JSON.stringify(name)}))`;
  check('and can be added', await until(`${tab('Unit 7 · 7 bytes')} !== undefined`));
  await type('which', '12'); await click('#add'); await type('typed', 'from twelve\n');
  await type('deck', " INPUT(.FROM,12)\n OUTPUT(.TO,7)\n TO = 'to seven, ' FROM\n OUTPUT = 'done'\nEND\n");
  await click('#run'); await ended();
  check('a further unit is read and another written', await until(`${tab('Unit 7 · 22 bytes')} !== undefined`), await text('outputs'));
  await b.value(`(${tab('Unit 7')}.click(), true)`);
  check('each in a pane of its own', await until(printed('to seven, from twelve\n')), await text('printed'));
  await shot('units');
  await b.value(`(${tab('Unit 6')}.click(), true)`);
  for (const unit of [12, 7]) { await b.value(`([...document.querySelectorAll('#units button')].find((each) => each.textContent === 'Unit ${unit}').click(), true)`); await click('#drop'); }
  await run(" OUTPUT = 1 / 0\nEND\n");
  check('an error is explained', /E2 in statement 1, card 1.*zero divisor/.test(await text('end')), await text('end'));
}

async function profile({ b, check, click, ended, run, shot, text, until }) {
  await run("* Warms.\n A = 'once'\nNEXT N = N + 1\n LT(N,1000) :S(NEXT)\n B = 'never' :(END)\n C = A\nEND\n");
  await click('#profile'); await ended();
  check('the profile has the counts', await until("[...document.querySelectorAll('#gutter .count')].map((each) => each.textContent).join() === '1,1,000,1,000,1,0'"), await b.value("[...document.querySelectorAll('#gutter .count')].map((each) => each.textContent).join()"));
  const heats = await b.value("[...document.querySelectorAll('#under div')].map((each) => each.style.background).filter(Boolean).map((each) => Number(/([\\d.]+)\\)$/.exec(each)[1]))");
  check('and cards that begin more often are warmer', heats.length === 4 && heats[1] > 2 * heats[0] && heats[1] === heats[2] && heats[0] === heats[3], heats.join());
  await shot('profile');
  await run(" OUTPUT = &STCOUNT\nEND\n");
  await click('#profile');
  check('a deck that counts its statements has no profile', (await text('end')).includes('No profile'), await text('end'));
}

async function trace({ b, check, click, ended, key, run, shot, text, type, until }) {
  await run(COUNTS);
  await click('#trace'); await ended();
  await until("document.getElementById('step') !== null");
  await b.value("(document.getElementById('follow').focus(), true)");
  for (let n = 0; n < 4; n++) await key('ArrowRight');
  check('the trace goes forward', (await text('step')) === '5 of 15: statement 2, card 3' && (await text('follow')).includes('N2'), await text('step'), await text('follow'));
  await key('ArrowLeft');
  check('and back', (await text('step')) === '4 of 15: statement 1, card 2' && (await text('follow')).includes('N1'), await text('step'));
  check('with what was printed so far', await until("document.getElementById('printed').firstChild.textContent === '1\\n' && document.querySelector('#printed .later').textContent === '2\\n3\\n4\\n5\\n'"), await text('printed'));
  await shot('trace');
  await key('End');
  check('End is where the deck ends', (await text('step')) === '15 statements, and this is the end', await text('step'));
  await key('Home');
  check('Home is where it begins', (await text('step')) === '1 of 15: statement 1, card 2', await text('step'));
  await click('#view-code');
  const row = "[...document.querySelectorAll('#code .row')].find((each) => each.firstChild.textContent === '3')";
  check('instructions stand beside their cards', await until(`${row} && /^ OUTPUT = N/.test(${row}.children[1].textContent) && / BEGIN /.test(${row}.children[2].textContent)`), await text('code'));
  await shot('instructions');
  await type('deck', " &STLIMIT = -1\nL OUTPUT = N\n N = N + 1 :(L)\nEND\n");
  await click('#trace'); await ended();
  check('an endless deck has a trace of its beginning', await until("document.getElementById('step')?.textContent.startsWith('1 of 5,000 and more')"), await text('follow'));
  await click('#view-listing');
}

async function links({ b, check, click, open, settled, text, type, until }, page) {
  await type('deck', " OUTPUT = 'linked ' INPUT\nEND\n"); await type('typed', 'by address\n');
  await click('#link'); await until("location.hash.length > 1");
  await open(page, await b.value('location.hash')); await settled();
  check('a link holds the deck and its records', await until(printed('linked by address\n')), await text('printed'));
}

// Everything that can be used can be reached and used by keys, and one sees where one is.
export async function byKeys(t, page) {
  const { b, check, key, shot, text, until } = t;
  await begin(t, page);
  const focus = (selector) => b.value(`(document.querySelector(${JSON.stringify(selector)}).focus(), true)`);
  await focus('#decks'); await key('Enter');
  check('Enter opens the decks', await until("document.getElementById('chooser').open"));
  for (let n = 0; n < 3; n++) await key('Tab');
  const asked = await b.value('document.activeElement.ariaLabel');
  await key('Enter');
  check('Tab and Enter try one', /^Try it/.test(asked) && await until("!document.getElementById('chooser').open"), asked);
  await t.settled();
  await focus('#help'); await key('Enter'); await until("document.getElementById('about').open");
  await shot('help');
  await key('Escape');
  check('Escape closes the help', await until("!document.getElementById('about').open"));
  await focus('#view-listing'); await key('ArrowRight');
  check('arrows go from tab to tab', await b.value("document.activeElement.id") === 'view-code' && await until("/BEGIN/.test(document.getElementById('code').textContent)"));
  await focus('#which'); await b.value("(document.activeElement.value = '9', true)"); await key('Enter');
  check('Enter adds a unit, whose records are typed next', (await text('units')).includes('Unit 9') && await b.value('document.activeElement.id') === 'typed');
  await focus('#drop'); await key('Enter');
  check('and Enter takes it away', !(await text('units')).includes('Unit 9'));
  await focus('#deck'); await key('Tab');
  check('Tab leaves the editor', await b.value('document.activeElement.id') !== 'deck');
  await begin(t, page);
  const missed = await tabbed(t);
  check('each thing on the page is reached by Tab, and shows it', missed.length === 0, missed.join(', '));
}

// What of the page's controls isn't met by Tab, or doesn't show that it is. Behind the last, keys go to the browser.
async function tabbed({ b, key }) {
  await b.value("(globalThis.met = new Set(), globalThis.meet = () => { const { outlineStyle, outlineWidth } = getComputedStyle(document.activeElement); if (outlineStyle !== 'none' && outlineWidth !== '0px') met.add(document.activeElement); }, true)");
  const all = "[...document.querySelectorAll('header button:enabled, header input, main button, main input, main textarea, main [tabindex=\"0\"]')].filter((each) => each.offsetParent && each.tabIndex >= 0)";
  const count = await b.value(`${all}.length`);
  for (let n = 0; n < count + 8; n++) { await key('Tab'); await b.value('(meet(), true)'); }
  return b.value(`${all}.filter((each) => !met.has(each)).map((each) => each.id || each.textContent)`);
}

// Output is shown as it is printed, and an endless run leaves the page responsive.
export async function endless(t, page) {
  const { b, check, click, ended, key, name, run, text, type, until } = t;
  await begin(t, page);
  await type('deck', " &STLIMIT = -1\nL OUTPUT = N\n N = LT(N,500) N + 1 :S(L)\nM K = K + 1 :(M)\nEND\n");
  await click('#run');
  check('what is printed is shown while the deck runs on', await until("document.getElementById('printed').textContent.endsWith('\\n500\\n') && document.body.dataset.state === 'running'"));
  await key('Escape');
  check('Escape stops it', await ended() && (await text('end')).includes('Stopped'));
  await type('deck', ENDLESS);
  await type('steps', '1000000000000');
  await click('#run');
  const { megabytes, pause, bytes } = await hundredMegabytes(t);
  check('an endless deck prints 100 MB', bytes > 100e6, bytes);
  check('the page stays under 300 MB', megabytes < 300, Math.round(megabytes));
  check('and responsive', pause < 300, Math.round(pause));
  console.log(`${name}: 100 MB of output took ${Math.round(megabytes)} MB, and the longest pause ${Math.round(pause)} ms`);
  check('Stop works at once', await b.value("(document.getElementById('stop').click(), document.body.dataset.state)") === 'ended' && (await text('end')).includes('Stopped'), await text('end'));
  await type('steps', '1000000000');
  await run(" OUTPUT = 'again'\nEND\n");
  check('and the next run is as the first', await until(printed('again\n')), (await text('printed')).slice(0, 200), await text('end'));
}

// Waits until a deck has printed 100 MB: how much memory the page took at most, and the longest time in which it answered
// nothing. While its thread is ready to run and the system lets others run, it can't answer; such times are taken off, so
// that what else the machine does isn't counted. A pause ends before the page is asked for it, and begins after it was asked
// before.
async function hundredMegabytes({ b }) {
  await b.value("(globalThis.pauses = { longest: 0, last: performance.now(), tick() { const now = performance.now(); this.longest = Math.max(this.longest, now - this.last); this.last = now; }, ask() { this.tick(); const { longest } = this; this.longest = 0; return longest; } }, setInterval(() => pauses.tick(), 5), true)");
  const count = "Number(document.querySelector('#outputs button').textContent.replace(/.*·/, '').replace(/[^0-9]/g, ''))";
  let megabytes = 0, pause = 0, bytes = 0, { waited } = b.tab();
  await b.value('pauses.ask()');
  for (const began = Date.now(); Date.now() - began < 300000 && bytes <= 100e6; await sleep(100)) {
    const longest = await b.value('pauses.ask()'), now = b.tab();
    megabytes = Math.max(megabytes, now.megabytes);
    pause = Math.max(pause, longest - (now.waited - waited));
    waited = now.waited;
    bytes = await b.value(count);
  }
  return { megabytes, pause, bytes };
}

// Phones, dark and light.
export async function looks(t, page) {
  const { b, check, click, run, shot, until } = t;
  await begin(t, page, [390, 800, true]);
  check('a phone has no sideways scrolling', await b.value('document.documentElement.scrollWidth') <= 390, await b.value('document.documentElement.scrollWidth'));
  const small = await b.value("[...document.querySelectorAll('header button, main button')].filter((each) => each.offsetParent && each.offsetHeight < 24).map((each) => each.textContent)");
  check('and nothing too small for a finger', small.length === 0, small.join());
  await shot('phone');
  await run(COUNTS);
  await click('#trace'); await until("document.getElementById('step') !== null");
  await b.value("(document.getElementById('more').scrollIntoView(), true)");
  await shot('phone-trace');
  for (const theme of ['dark', 'light']) {
    await begin(t, page);
    while (await b.value('document.documentElement.dataset.theme') !== theme || await b.value("document.getElementById('theme').textContent === 'Theme'")) await click('#theme');
    await run(FAULTY);
    const faint = await b.value(`(${unreadable})()`);
    check(`what is written can be read where it is ${theme}`, faint.length === 0, faint.join('; '));
    await run(COUNTS); await click('#profile'); await t.ended();
    await shot(theme);
  }
  await b.value("(localStorage.removeItem('theme'), true)");
  await b.dark(true); await begin(t, page);
  check('the page is dark as the system is', !b.canBeDark || await b.value('document.documentElement.dataset.theme') === 'dark');
  await b.dark(false);
}

// In the page: the texts whose contrast with what is behind them is less than 4.5.
function unreadable() {
  const parts = (colour) => { const [r, g, b, a = 1] = colour.match(/[\d.]+/g).map(Number); return [r, g, b, a]; };
  const over = ([r, g, b, a], under) => [r, g, b].map((each, n) => each * a + under[n] * (1 - a));
  const behind = (each) => { if (!each) return [255, 255, 255]; const colour = parts(getComputedStyle(each).backgroundColor); return colour[3] === 1 ? colour.slice(0, 3) : over(colour, behind(each.parentElement)); };
  const light = (colour) => { const [r, g, b] = colour.map((each) => { const c = each / 255; return c <= .04045 ? c / 12.92 : ((c + .055) / 1.055) ** 2.4; }); return .2126 * r + .7152 * g + .0722 * b; };
  const found = [];
  for (const each of document.querySelectorAll('body *')) {
    const text = [...each.childNodes].filter((node) => node.nodeType === 3 && node.data.trim()).map((node) => node.data.trim()).join(' ');
    if (!(text || each.value) || !each.offsetParent || each.disabled) continue;
    const back = behind(each), colours = [light(over(parts(getComputedStyle(each).color), back)), light(back)].sort((a, b) => b - a), contrast = (colours[0] + .05) / (colours[1] + .05);
    if (contrast < 4.5) found.push(`${(text || each.value).slice(0, 30)}: ${contrast.toFixed(1)}`);
  }
  return found;
}
