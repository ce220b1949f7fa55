// The site: decks that run where they stand, and a search of the pages' words.

const of = (id) => document.getElementById(id);
const make = (name, given = {}, ...parts) => { const made = Object.assign(document.createElement(name), given); made.append(...parts); return made; };

// ---- decks. The module is a script of its own, which is loaded when the first deck is run.

let loading, worker, busy, next = 0;
const loaded = () => loading ??= new Promise((done, failed) => {
  document.head.append(make('script', { src: 'module.js', onload: () => done(WebAssembly.compile(Uint8Array.from(atob(WASM), (c) => c.charCodeAt(0)))), onerror: () => failed(new Error('module.js was not loaded')) }));
});

async function fresh() {
  worker?.terminate();
  const module = await loaded();
  worker = new Worker(URL.createObjectURL(new Blob([WORKER], { type: 'text/javascript' })));
  worker.postMessage({ module });
}

function said(told, status) {
  if (status === 0) return 'ended normally';
  if (status === 3) return 'refused';
  return told.trim().split('\n').join('; ') || `ended with status ${status}`;
}

// The messages of a refused deck, which its listing has, and that of an error: card, code, and what is shown of it.
const faultsOf = (listing) => readListing(listing).cards.flatMap(({ card, faults }) => faults.map(({ cause, column, text }) => ({ card, code: cause.split(' ').pop(), text: `Card ${card}${column === undefined ? '' : `, column ${column + 1}`}, ${cause.replace(/^card \d+ /, '')}. ${text}` })));
const errorOf = (told) => [...told.matchAll(/^error (E\d+) statement \d+ card (\d+)/gm)].map(([, code, card]) => ({ card, code }));

// What of a run is as the page shows it.
function sameAs({ prints, told }, text, messages) {
  const same = [];
  if (text === prints) same.push('prints');
  if (told && told.join() === messages.map(({ card, code }) => `${card} ${code}`).join()) same.push('reports');
  return same.length ? `, and ${same.join(' and ')} what the page says` : '';
}

async function run(box) {
  const given = JSON.parse(box.dataset.given), [deck, typed] = box.querySelectorAll('textarea'), button = box.querySelector('button'), end = box.querySelector('.end'), printed = box.querySelector('.printed');
  if (busy === box) { stop('stopped'); return; }
  if (busy) stop('stopped');
  busy = box;
  button.textContent = 'Stop';
  end.className = 'end'; end.textContent = 'running …';
  printed.textContent = ''; printed.hidden = false;
  box.querySelector('.told').replaceChildren();
  try { if (!worker) await fresh(); } catch (error) { stop(String(error)); return; }
  if (busy !== box) return;
  const id = ++next, decoder = new TextDecoder(), others = new Map();
  let text = '', count = 0;
  const whole = given.times ? `${deck.value}\n`.repeat(given.times) + 'END\n' : deck.value;
  const units = [{ unit: 5, typed: typed?.value ?? given.input, only: 1 }, { unit: 6, only: 2 }];
  worker.onmessage = ({ data }) => {
    if (data.id !== id) return;
    for (const part of data.printed ?? []) {
      if (part.unit !== 6) { others.set(part.unit, part.count); continue; }
      count = part.count;
      if (text.length < 200000) { const more = decoder.decode(part.bytes, { stream: true }); text += more; printed.append(more); }
    }
    if (data.failed) stop(/memory|out of bounds/.test(data.failed) ? 'the browser gave no more memory' : data.failed);
    if (!data.done) return;
    const { status, told } = data.done;
    if (status === 3) { refused(box, whole, given); return; }
    show(said(told, status) + sameAs(given, text, errorOf(told)) + (count > text.length + 1000 ? `; ${count.toLocaleString('en')} bytes in all` : ''), status);
  };
  worker.postMessage({ id, call: 'run', deck: whole, units, steps: given.steps });
}

// Lists a deck that was refused, for its messages.
function refused(box, deck, given) {
  const id = ++next;
  worker.onmessage = ({ data }) => {
    if (data.id !== id) return;
    if (data.failed) { stop(data.failed); return; }
    const messages = faultsOf(data.listing);
    box.querySelector('.told').append(...messages.map(({ text }) => make('li', { textContent: text })));
    show(said('', data.status) + sameAs(given, '', messages), data.status);
  };
  worker.postMessage({ id, call: 'list', deck, code: false, width: 132 });
}

function show(text, status) {
  const end = busy.querySelector('.end');
  end.textContent = text;
  end.className = `end ${status ? 'bad' : 'good'}`;
  busy.dataset.status = status;
  for (const name of ['.printed', '.told']) { const box = busy.querySelector(name); box.hidden = !box.textContent; }
  busy.querySelector('button').textContent = 'Run';
  busy = null;
}

function stop(why) {
  show(why, 1);
  worker?.terminate();
  worker = null;
}

for (const opener of document.querySelectorAll('.opener')) opener.onclick = () => {
  const row = opener.closest('tr').nextElementSibling;
  row.hidden = !row.hidden;
  opener.setAttribute('aria-expanded', String(!row.hidden));
  if (!row.hidden) run(row.querySelector('.deck'));
};

for (const box of document.querySelectorAll('.deck')) {
  box.querySelector('button').onclick = () => run(box);
  box.onkeydown = (event) => { if (event.key === 'Enter' && (event.ctrlKey || event.metaKey)) { event.preventDefault(); run(box); } };
  // What is changed is no longer what the link holds.
  const link = box.querySelector('a');
  for (const each of box.querySelectorAll('textarea')) each.oninput = () => { if (link) link.hidden = true; box.dataset.given = JSON.stringify({ ...JSON.parse(box.dataset.given), prints: null, told: null }); };
}

// ---- the search: every word must stand in a section, and those in whose heading it stands come first

function search(asked) {
  const words = asked.toLowerCase().split(/\s+/).filter(Boolean);
  if (!words.length) return [];
  const found = [];
  for (const [page, anchor, title, text] of WORDS) {
    const head = title.toLowerCase(), body = text.toLowerCase();
    if (!words.every((word) => head.includes(word) || body.includes(word))) continue;
    const score = words.reduce((sum, word) => sum + (head === word ? 50 : head.includes(word) ? 20 : 0) + Math.min(9, body.split(word).length - 1), 0);
    found.push({ page, anchor, title, text, score });
  }
  return found.sort((a, b) => b.score - a.score).slice(0, 30);
}

function around(text, word) {
  const at = text.toLowerCase().indexOf(word), from = Math.max(0, at - 50);
  if (at < 0) return [text.slice(0, 120)];
  return [(from ? '…' : '') + text.slice(from, at), make('mark', { textContent: text.slice(at, at + word.length) }), text.slice(at + word.length, at + 90) + '…'];
}

of('search').oninput = () => {
  const asked = of('search').value.trim(), found = search(asked), word = asked.toLowerCase().split(/\s+/)[0];
  of('found').hidden = !asked;
  of('pages').hidden = !!asked;
  of('found').replaceChildren(...found.map(({ page, anchor, title, text }) => make('li', {}, make('a', { href: `${page}#${anchor}`, textContent: title }), make('small', {}, `${page.replace('.html', '')}: `, ...around(text, word)))), ...(asked && !found.length ? [make('li', { textContent: 'nothing found' })] : []));
};
document.addEventListener('keydown', (event) => {
  if (event.key === '/' && !/^(INPUT|TEXTAREA)$/.test(document.activeElement.tagName)) { event.preventDefault(); of('search').focus(); }
  else if (event.key === 'Escape' && document.activeElement === of('search')) { of('search').value = ''; of('search').oninput(); }
});

// ---- themes

of('theme').onclick = () => {
  const root = document.documentElement.dataset;
  root.theme = { auto: 'dark', dark: 'light', light: 'auto' }[root.theme ?? 'auto'];
  of('theme').textContent = { auto: 'Theme', dark: 'Dark', light: 'Light' }[root.theme];
  try { localStorage.setItem('theme', root.theme); } catch { /* no storage */ }
};
