// The page: the editor with what is wrong, the units, the run, the profile and the trace.

const of = (id) => document.getElementById(id);
const make = (name, given = {}, ...parts) => { const made = Object.assign(document.createElement(name), given); made.append(...parts); return made; };
const number = (n) => n.toLocaleString('en');
const ROW = 20, SHOWN = 200000, LISTED = 3000, WATCHED = 24;
const deck = of('deck'), typed = of('typed');

// ---- the module and its workers: one runs, one lists

const source = URL.createObjectURL(new Blob([of('worker').textContent], { type: 'text/javascript' }));
const bytes = Uint8Array.from(atob(WASM), (c) => c.charCodeAt(0));
const module = WebAssembly.compile(bytes);
module.catch((error) => finish('bad', 'This browser cannot run the module.', String(error)));

class Hand {
  constructor() { this.calls = new Map(); this.next = 0; this.works = false; this.start(); }
  start() {
    this.worker = new Worker(source);
    this.worker.onmessage = ({ data }) => { if (data.over === this.next) { this.works = false; tell(); } this.calls.get(data.id)?.(data); };
    this.worker.onerror = (event) => { event.preventDefault(); for (const told of this.calls.values()) told({ failed: event.message || 'the worker failed' }); };
    const { worker } = this;
    module.then((compiled) => { try { worker.postMessage({ module: compiled }); } catch { worker.postMessage({ module: bytes }); } }, () => {});
  }
  // Has a call done, in place of one that isn't over, and hands what it sends to a function.
  call(call, given, told) {
    const id = ++this.next;
    if (this.works) this.stop();
    this.works = true;
    this.calls.clear();
    this.calls.set(id, told);
    module.then(() => this.worker.postMessage({ id, call, ...given }), () => {});
  }
  stop() { this.worker.terminate(); this.calls.clear(); this.works = false; this.start(); }
}
const runner = new Hand(), lister = new Hand();
// For tests: whether anything of a run still goes on.
const tell = () => { document.body.dataset.works = runner.works ? 'yes' : ''; };

// ---- the state

let units = [{ unit: 5, typed: '', only: 1 }], shown = 5, busy = false, outputs = new Map(), output = 6, cards = [], heat = null, trail = null, step = 0, came = null, began = 0;
const given = () => [...units.map((each) => ({ ...each })), { unit: 6, typed: '', only: 2 }].filter((each, n, all) => all.findIndex((other) => other.unit === each.unit) === n);
const bound = () => { const n = Number(of('steps').value.replace(/[^0-9]/g, '')); return Math.max(1, Math.min(n || 1000000000, Number.MAX_SAFE_INTEGER)); };

// ---- the editor: numbers, marks, heat, the line of column 72

let lines = 1;
function paint() {
  const gutter = of('gutter'), under = of('under');
  const top = deck.scrollTop, left = deck.scrollLeft, height = deck.clientHeight;
  const from = Math.max(0, Math.floor(top / ROW) - 1), to = Math.min(lines, Math.ceil((top + height) / ROW) + 1);
  const at = (line) => `top:${6 + line * ROW - top}px`;
  const numbers = [], rows = [make('div', { className: 'limit', style: `left:calc(8px + 72ch - ${left}px)` })];
  const now = trail?.[step] && trail.all[trail[step].statement - 1];
  const most = heat ? Math.max(1, ...heat.values()) : 1;
  gutter.classList.toggle('counted', !!heat);
  for (let line = from; line < to; line++) {
    const card = cards[line], count = heat?.get(line + 1), faulty = card?.faults.length > 0;
    const mark = make('div', { className: faulty ? 'bad' : '', style: at(line) });
    if (count !== undefined) mark.append(make('span', { className: 'count', textContent: number(count) }));
    mark.append(String(line + 1).padStart(String(lines).length));
    numbers.push(mark);
    if (count) rows.push(make('div', { style: `${at(line)};background:rgba(var(--heat),${(.06 + .44 * Math.log1p(count) / Math.log1p(most)).toFixed(2)})` }));
    if (faulty) {
      rows.push(make('div', { className: 'bad', style: at(line) }));
      for (const { column } of card.faults) if (column !== undefined) rows.push(make('div', { className: 'caret', style: `${at(line)};left:calc(8px + ${column}ch - ${left}px)` }));
    }
    if (now && line + 1 >= now.card && line + 1 <= now.last) rows.push(make('div', { className: 'here', style: at(line) }));
  }
  gutter.replaceChildren(...numbers);
  under.replaceChildren(...rows);
}
let painting = 0;
const repaint = () => { painting ||= requestAnimationFrame(() => { painting = 0; paint(); }); };

function place() {
  const before = deck.value.slice(0, deck.selectionStart), card = before.split('\n').length;
  of('place').textContent = `card ${card}, column ${before.length - before.lastIndexOf('\n')}`;
}

function goTo(card, column = 0) {
  const lines = deck.value.split('\n'), from = lines.slice(0, card - 1).reduce((sum, line) => sum + line.length + 1, 0);
  deck.focus();
  deck.setSelectionRange(from + column, from + (column ? column : (lines[card - 1] ?? '').length));
  reveal(card);
  place();
}

function reveal(card) {
  const at = 6 + (card - 1) * ROW;
  if (at < deck.scrollTop + ROW || at > deck.scrollTop + deck.clientHeight - 2 * ROW) deck.scrollTop = Math.max(0, at - deck.clientHeight / 2);
}

// ---- what is wrong in the deck, as one types

function list(after) {
  const code = of('view-code').getAttribute('aria-selected') === 'true';
  lister.call('list', { deck: deck.value, code, width: 132 }, (answer) => {
    if (answer.failed) return;
    const read = readListing(answer.listing);
    cards = [];
    for (const card of read.cards) cards[card.card - 1] = card;
    showFaults(read.cards);
    (code ? showCode : showListing)(read);
    repaint();
    after?.();
  });
}

function showFaults(found) {
  const faulty = found.flatMap((card) => card.faults.map((fault) => ({ card, fault })));
  const rows = faulty.slice(0, 50).map(({ card, fault }) => {
    const row = make('button', { onclick: () => goTo(card.card, fault.column) }, make('b', { textContent: `Card ${card.card}, ${fault.cause.replace(/^card \d+ /, '')}. ` }), fault.text);
    return row;
  });
  if (faulty.length > 50) rows.push(make('div', { className: 'prose faint', textContent: `and ${faulty.length - 50} more` }));
  of('faults').replaceChildren(...rows);
}

function showListing(read) {
  const rows = read.cards.slice(0, LISTED).map((card) => {
    const row = make('div', { className: 'row' }, make('span', { textContent: card.card }), make('span', { textContent: card.first ? card.first === card.last ? card.first : `${card.first}-${card.last}` : '' }), make('span', { textContent: card.text }));
    for (const fault of card.faults) {
      if (fault.column !== undefined) row.append(make('span', { className: 'caret-line', textContent: ' '.repeat(fault.column) + '^' }));
      row.append(make('span', { className: 'told' }, make('b', { className: 'fault', textContent: fault.cause + '. ' }), fault.text));
    }
    return row;
  });
  if (read.cards.length > LISTED) rows.push(make('p', { className: 'prose faint', textContent: `The first ${number(LISTED)} cards are shown.` }));
  rows.push(make('p', { className: 'prose faint', textContent: read.counts }));
  of('listing').replaceChildren(...rows);
}

function showCode(read) {
  if (!read.cards.some((card) => card.code.length)) {
    of('code').replaceChildren(make('p', { className: 'prose', textContent: 'A deck with faults has no instructions.' }));
    return;
  }
  of('code').replaceChildren(...read.cards.slice(0, LISTED).map((card) => {
    const code = make('span');
    for (const line of card.code) code.append(line.slice(0, 9), make('b', { textContent: line.slice(9).split(' ')[0] }), line.slice(9).replace(/^\S+/, '') + '\n');
    return make('div', { className: 'row' }, make('span', { textContent: card.card }), make('span', { textContent: card.text }), code);
  }));
}

// What was found of an earlier deck or earlier records.
function forget() {
  heat = trail = null;
  of('profile').setAttribute('aria-pressed', 'false');
  if (!busy) of('end').className = 'old';
}

let pause;
function changed() {
  forget();
  lines = deck.value.split('\n').length;
  clearTimeout(pause);
  lister.calls.clear();
  pause = setTimeout(() => list(), deck.value.length > 200000 ? 800 : 120);
  place();
  repaint();
}

// ---- tabs

function tabs(box, names, now, pick) {
  const focused = box.contains(document.activeElement);
  box.replaceChildren(...names.map(([name, text]) => make('button', { role: 'tab', textContent: text, ariaSelected: String(name === now), tabIndex: name === now ? 0 : -1, onclick: () => pick(name) })));
  if (focused) box.querySelector('[aria-selected=true]')?.focus();
}

for (const box of document.querySelectorAll('[role=tablist]')) box.addEventListener('keydown', (event) => {
  const all = [...box.children], at = all.indexOf(document.activeElement), to = { ArrowRight: at + 1, ArrowLeft: at - 1, Home: 0, End: all.length - 1 }[event.key];
  if (at < 0 || to === undefined) return;
  event.preventDefault();
  const next = all[(to + all.length) % all.length];
  next.focus();
  next.click();
});

function view(name) {
  for (const [tab, panel] of [['view-listing', 'listing'], ['view-code', 'code'], ['view-steps', 'follow']]) {
    of(tab).setAttribute('aria-selected', String(tab === name));
    of(tab).tabIndex = tab === name ? 0 : -1;
    of(panel).hidden = tab !== name;
  }
  if (name === 'view-steps') { if (!trail) trace(); } else list();
}
for (const tab of of('views').children) tab.onclick = () => view(tab.id);

// ---- units

function showUnits() {
  tabs(of('units'), units.map((each) => [each.unit, `Unit ${each.unit}`]), shown, (unit) => { shown = unit; showUnits(); });
  const now = units.find((each) => each.unit === shown);
  if (typed.value !== now.typed) typed.value = now.typed;
  typed.placeholder = shown === 5 ? 'Records that the deck reads, one a line' : `Unit ${shown}: records that the deck reads, one a line; or none, and the deck writes it`;
  of('drop').hidden = shown === 5;
}
const offer = () => { of('which').value = [7, 8, 9, ...Array(100).keys()].find((n) => n !== 6 && !units.some((each) => each.unit === n)); };

function addUnit(unit) {
  if (unit === 6 || units.some((each) => each.unit === unit)) return;
  units = [...units, { unit, typed: '', only: 0 }].sort((a, b) => a.unit - b.unit);
  shown = unit;
  offer(); showUnits();
}
of('add').onclick = () => {
  const asked = of('which').value.trim();
  if (/^\d{1,2}$/.test(asked)) { addUnit(Number(asked)); typed.focus(); } else of('which').focus();
};
of('which').onkeydown = (event) => { if (event.key === 'Enter' && !event.ctrlKey) of('add').click(); };
of('drop').onclick = () => { units = units.filter((each) => each.unit !== shown); shown = 5; offer(); showUnits(); typed.focus(); };
typed.oninput = () => { units.find((each) => each.unit === shown).typed = typed.value; forget(); repaint(); };

// ---- what is printed

class Written {
  constructor(unit) { this.unit = unit; this.head = ''; this.tail = new Uint8Array(); this.count = 0; this.kept = 0; this.decoder = new TextDecoder(); this.parts = []; }
  put({ bytes, whole, count }) {
    const gap = count - this.count !== bytes.length;
    this.count = count;
    if (whole) { this.parts.push(bytes); this.kept += bytes.length; this.head += this.decoder.decode(bytes, { stream: true }); return; }
    const all = new Uint8Array(gap ? bytes.length : this.tail.length + bytes.length);
    if (!gap) all.set(this.tail);
    all.set(bytes, all.length - bytes.length);
    this.tail = all.slice(-65536);
  }
}

let drawn = { unit: null, length: 0, note: null };
function draw() {
  const box = of('printed'), now = outputs.get(output);
  if (trail) { drawTrail(box); return; }
  const head = now?.head.slice(0, SHOWN) ?? '', stays = box.scrollHeight - box.scrollTop - box.clientHeight < 40;
  if (drawn.unit !== output || drawn.of !== now || head.length < drawn.length || !box.firstChild) {
    box.replaceChildren(make('div', {}, document.createTextNode('')));
    drawn = { unit: output, of: now, length: 0, note: null };
  }
  if (head.length > drawn.length) { box.firstChild.firstChild.appendData(head.slice(drawn.length)); drawn.length = head.length; }
  if (now && now.count > now.kept || now?.head.length > SHOWN) {
    const last = now.tail.length ? new TextDecoder().decode(now.tail) : now.head.slice(-60000), hidden = now.tail.length ? now.count - now.tail.length - SHOWN : now.head.length - SHOWN - last.length;
    drawn.note ??= [box.appendChild(make('div', { className: 'gap' })), box.appendChild(make('div'))];
    drawn.note[0].textContent = hidden > 0 ? `… ${number(hidden)} bytes more …` : '';
    drawn.note[1].textContent = hidden > 0 || now.tail.length ? last : now.head.slice(SHOWN);
  }
  if (busy && stays) box.scrollTop = box.scrollHeight;
  of('save').hidden = !now?.count || busy;
}
let drawing = 0, lastDrawn = 0;
const redraw = () => { drawing ||= setTimeout(() => requestAnimationFrame(() => { drawing = 0; lastDrawn = performance.now(); draw(); }), Math.max(0, (outputs.get(output)?.head.length > SHOWN ? 250 : 30) - (performance.now() - lastDrawn))); };

function showOutputs() {
  const all = [...new Set([6, ...outputs.keys()])].sort((a, b) => a - b);
  if (!all.includes(output)) output = 6;
  tabs(of('outputs'), all.map((unit) => [unit, `Unit ${unit}${outputs.get(unit) ? ` · ${number(outputs.get(unit).count)} bytes` : ''}`]), output, (unit) => { output = unit; showOutputs(); redraw(); });
}

of('save').onclick = () => {
  const now = outputs.get(output), parts = [...now.parts];
  if (now.tail.length) parts.push(`\n… ${now.count - now.kept - now.tail.length} bytes more …\n`, now.tail);
  const link = make('a', { href: URL.createObjectURL(new Blob(parts)), download: `unit-${output}.txt` });
  link.click();
  setTimeout(() => URL.revokeObjectURL(link.href), 1000);
};

// ---- a run

function finish(kind, head, what = '', ...more) {
  of('end').className = '';
  of('end').replaceChildren(make('span', { className: kind, textContent: head }), ...more, ...(what ? [make('span', { className: 'what' }, what)] : []));
}

function setBusy(now) {
  busy = now;
  of('run').disabled = now; of('stop').disabled = !now; of('profile').disabled = now; of('trace').disabled = now;
  document.body.dataset.state = now ? 'running' : 'ended';
  tell();
}

const faint = (text) => make('span', { className: 'faint', textContent: text });
const size = (bytes) => bytes < 1048576 ? `${number(Math.ceil(bytes / 1024))} KiB` : `${number(Math.round(bytes / 1048576))} MiB`;
const counted = (n, what) => `${number(n)} ${what}${n === 1 ? '' : 's'}`;
const time = (ms) => ms < .05 ? 'under 1 ms' : ms < 10 ? `${ms.toFixed(1)} ms` : ms < 10000 ? `${number(Math.round(ms))} ms` : `${(ms / 1000).toFixed(1)} s`;

function run() {
  if (busy) return;
  forget();
  if (of('view-steps').getAttribute('aria-selected') === 'true') view('view-listing');
  outputs = new Map(); came = null; began = performance.now();
  setBusy(true);
  showOutputs(); draw();
  finish('', 'Running …');
  runner.call('run', { deck: deck.value, units: given(), steps: bound(), second: second([]) }, (answer) => {
    heard(answer);
    if (answer.done) { setBusy(false); showEnd(); showOutputs(); redraw(); list(); }
  });
  repaint();
}

// What the worker sends of a run.
function heard(answer) {
  if (answer.failed) { stopped(answer.failed); return; }
  if (answer.printed) take(answer);
  if (answer.done) came = answer.done;
  if (came && (answer.steps || answer.statements)) { Object.assign(came, { steps: answer.steps ?? came.steps, statements: answer.statements ?? came.statements }); showEnd(); }
  if (answer.handed) compare(answer.handed);
}

function take(answer) {
  let fresh = false;
  for (const part of answer.printed) {
    if (!outputs.has(part.unit)) { outputs.set(part.unit, new Written(part.unit)); fresh = true; }
    outputs.get(part.unit).put(part);
  }
  if (fresh || answer.printed.length) { showOutputs(); redraw(); }
  if (busy && answer.made) finish('', 'Running …', '', faint(`${number(answer.made)} steps`), faint(time(answer.time)));
}

// What `page_run` hands over is proved; what was shown while it ran is compared with it.
function compare(handed) {
  if (!came) return;
  const now = outputs.get(6)?.head ?? '';
  came.same = handed.text === now && handed.status === came.status && handed.told === came.told;
  if (!came.same && !trail) {
    const bytes = new TextEncoder().encode(handed.text);
    outputs.set(6, new Written(6));
    outputs.get(6).put({ bytes, whole: true, count: bytes.length });
    redraw();
  }
  showEnd();
}

function stopped(why) {
  runner.stop();
  setBusy(false);
  finish('bad', why === 'stop' ? 'Stopped.' : /memory|allocat|out of bounds/i.test(why) ? 'The browser gave no more memory.' : `The module failed: ${why}`, '', faint(time(performance.now() - began)));
  showOutputs(); redraw();
}

function showEnd() {
  if (!came) return;
  const { status, told } = came, error = /^error (E\d+) statement (\d+)(?: card (\d+))?/.exec(told), limit = /^stlimit statement (\d+)(?: card (\d+))?/.exec(told), unit = /^unit (\d+) U(\d)/.exec(told);
  const card = Number(error?.[3] ?? limit?.[2] ?? 0), more = [];
  let head = 'Ended normally.', what = '';
  if (status === 3) { head = 'The deck is refused.'; what = 'Its faulty cards are marked.'; }
  else if (error) { head = `Ended by error ${error[1]} in statement ${error[2]}, card ${error[3]}.`; what = ERRORS[error[1]] ?? ''; }
  else if (limit) { head = `Ended by &STLIMIT before statement ${limit[1]}, card ${limit[2]}.`; what = '&STLIMIT is how many statements may begin: 50000 at first, and -1 is no limit.'; }
  else if (unit) { head = `Unit ${unit[1]} ${unit[2] === '1' ? 'is not open that way' : 'failed'}.`; if (unit[2] === '1' && !units.some((each) => each.unit === Number(unit[1])) && unit[1] !== '6') more.push(make('button', { className: 'small', textContent: `Add unit ${unit[1]} and run`, onclick: () => { addUnit(Number(unit[1])); run(); } })); }
  else if (/^steps used up/.test(told)) { head = 'The steps are used up.'; what = 'The run had not ended when it had made as many steps as it may.'; }
  else if (status) { head = told.trim() || `Ended with status ${status}.`; }
  if (card) more.push(make('button', { className: 'small', textContent: `Go to card ${card}`, onclick: () => goTo(card) }));
  if (came.statements !== undefined) more.push(faint(counted(came.statements, 'statement')));
  if (came.steps) more.push(faint(counted(came.steps, 'step'))); else if (status !== 3 && came.made) more.push(faint(`over ${number(came.made)} steps`));
  if (status !== 3) more.push(faint(time(came.time)), faint(size(came.memory)));
  if (came.same) more.push(make('span', { className: 'faint', title: 'The call page_run handed over the same; of that it is proved that the deck means it.', textContent: '✓ as page_run' }));
  finish(status ? 'bad' : 'good', head, what, ...more);
  Object.assign(document.body.dataset, { status, same: came.same });
}

// ---- the profile and the trace: a second deck that tells of each statement

const UNTOLD = 'This deck looks at its own counts of statements, or changes what is written, so a second deck that reports its statements would not do the same.';

function second(watched) {
  const unit = [98, 97, 96].find((n) => !units.some((each) => each.unit === n)), text = deck.value.length < 1000000 && telling(deck.value, unit, watched);
  return text ? { deck: text, unit } : null;
}

function follow(watched, most, after) {
  if (busy) return;
  const all = statements(deck.value), other = second(watched);
  if (!other) { finish('bad', 'No profile or trace.', UNTOLD); return; }
  setBusy(true);
  finish('', 'Running …');
  runner.call('follow', { ...other, units: given(), steps: Math.min(bound() * (4 + 4 * watched.length), Number.MAX_SAFE_INTEGER), watched: watched.length, most }, (answer) => {
    setBusy(false);
    if (answer.failed) { stopped(answer.failed); return; }
    if (answer.came?.status === 3) { came = null; list(() => finish('bad', 'The deck is refused.', 'Its faulty cards are marked.')); return; }
    answer.statements = all;
    // The same is done by the deck itself, and what both print must be the same.
    setBusy(true);
    outputs = new Map();
    runner.call('run', { deck: deck.value, units: given(), steps: answer.cut ? Math.min(bound(), 20000000) : bound() }, (plain) => {
      heard(plain);
      if (!plain.done) return;
      setBusy(false);
      showOutputs(); redraw();
      if (!isSame(answer)) { came = null; finish('bad', 'No profile or trace.', UNTOLD); return; }
      if (answer.cut) { came = null; finish('good', `The first ${number(MOST)} statements.`); } else came.statements = answer.all;
      after(answer);
      showEnd();
    });
  });
}

const ending = (told) => told.replace(/ statement .*/s, '').trim();

// Whether what the second deck printed is what the deck printed, and it ended so.
function isSame({ came: second, cut, printed }) {
  if (!cut && (second.status !== came.status || ending(second.told) !== ending(came.told))) return false;
  const texts = new Map(printed);
  if (!cut && outputs.size !== texts.size) return false;
  return [...texts].every(([unit, text]) => { const now = outputs.get(unit)?.head ?? ''; return cut || text.length > 4000000 ? now.startsWith(text.slice(0, now.length)) : now === text; });
}

of('profile').onclick = () => {
  if (heat) { heat = null; of('profile').setAttribute('aria-pressed', 'false'); repaint(); return; }
  follow([], 0, ({ statements: all, counts }) => {
    const found = new Map(counts);
    heat = new Map();
    all.slice(0, -1).forEach((statement, n) => { for (let card = statement.card; card <= statement.last; card++) heat.set(card, Math.max(heat.get(card) ?? 0, found.get(n + 1) ?? 0)); });
    trail = null;
    of('profile').setAttribute('aria-pressed', 'true');
    repaint(); redraw();
  });
};

function trace() {
  const watched = variables(deck.value).slice(0, WATCHED);
  of('follow').replaceChildren(make('p', { className: 'prose', textContent: 'The trace shows each statement, forward and back.' }));
  follow(watched, MOST, (answer) => {
    heat = null; of('profile').setAttribute('aria-pressed', 'false');
    trail = answer.trail;
    Object.assign(trail, { all: answer.statements, watched, texts: new Map(answer.printed), cut: answer.cut });
    if (!answer.cut) trail.push({ statement: answer.statements.length, values: trail[trail.length - 1]?.values ?? [], printed: answer.printed.map(([unit, text]) => [unit, text.length]), over: true });
    step = 0;
    if (of('view-steps').getAttribute('aria-selected') !== 'true') view('view-steps');
    showSteps();
  });
}
of('trace').onclick = () => { trail = null; view('view-steps'); };

function showSteps() {
  const box = of('follow');
  if (!trail.length) { box.replaceChildren(make('p', { className: 'prose', textContent: 'No statement begins.' })); return; }
  const to = (n) => () => move(n());
  const button = (text, title, n) => make('button', { className: 'small', textContent: text, title, onclick: to(n) });
  const slide = make('input', { type: 'range', min: 0, max: trail.length - 1, value: step, ariaLabel: 'Statement of the trace', oninput: () => move(Number(slide.value)) });
  const body = make('tbody'), text = make('div', { className: 'statement' });
  box.replaceChildren(make('div', { className: 'steps' }, button('|◀', 'The first (Home)', () => 0), button('◀', 'Back (←)', () => step - 1), button('▶', 'Forward (→)', () => step + 1), button('▶|', 'The last (End)', () => trail.length - 1), slide, make('span', { id: 'step' })), text, make('table', {}, body));
  Object.assign(trail, { slide, body, text });
  move(0);
  slide.focus();
}

function move(to) {
  step = Math.max(0, Math.min(trail.length - 1, to));
  const now = trail[step], before = trail[step - 1], statement = trail.all[now.statement - 1];
  trail.slide.value = step;
  of('step').textContent = now.over ? `${number(step)} statements, and this is the end` : `${number(step + 1)} of ${number(trail.length - (trail.cut ? 0 : 1))}${trail.cut ? ' and more' : ''}: statement ${now.statement}, card ${statement.card}`;
  trail.text.textContent = now.over ? '' : statement.text;
  trail.body.replaceChildren(...trail.watched.map((name, n) => {
    const value = now.values[n], text = typeof value === 'object' ? value.type : value ?? '', old = before?.values[n], was = typeof old === 'object' ? old.type : old ?? '';
    return make('tr', { className: before && text !== was ? 'new' : '' }, make('th', { textContent: name }), make('td', { textContent: text }));
  }));
  if (!now.over) reveal(statement.card);
  repaint(); draw();
}

function drawTrail(box) {
  const text = trail.texts.get(output) ?? '', count = trail[step]?.printed.find(([unit]) => unit === output)?.[1] ?? 0;
  // The count is one of bytes, and the text may have signs of several.
  const until = text.length <= count ? text.length : new TextDecoder().decode(new TextEncoder().encode(text).subarray(0, count)).length;
  box.replaceChildren(text.slice(Math.max(0, until - SHOWN), until), make('span', { className: 'later', textContent: text.slice(until, until + SHOWN) }));
  drawn = { unit: null };
}

of('follow').onkeydown = (event) => {
  if (!trail) return;
  const by = { ArrowLeft: -1, ArrowRight: 1, ArrowUp: -1, ArrowDown: 1, PageUp: -100, PageDown: 100 }[event.key], to = { Home: 0, End: trail.length }[event.key];
  if (by === undefined && to === undefined) return;
  event.preventDefault();
  move(to ?? step + by * (event.shiftKey ? 10 : 1));
};

// ---- decks to try, and links

function show({ deck: text, input = '', units: others, steps }) {
  deck.value = text;
  units = others?.map(([unit, typed, only]) => ({ unit, typed, only })) ?? [{ unit: 5, typed: input, only: 1 }];
  if (!units.some((each) => each.unit === 5)) units.unshift({ unit: 5, typed: '', only: 1 });
  shown = 5;
  if (steps) of('steps').value = String(steps);
  deck.scrollTop = deck.scrollLeft = 0;
  deck.setSelectionRange(0, 0);
  showUnits(); changed();
}

for (const group of new Set(DECKS.map((each) => each.group))) {
  of('choices').append(make('h3', { textContent: group }));
  for (const each of DECKS.filter((other) => other.group === group)) of('choices').append(make('div', { className: 'choice' }, make('span', {}, each.name, ' ', make('small', { textContent: each.says })), make('button', { className: 'small', textContent: 'Try it', ariaLabel: `Try it: ${each.name}`, onclick: () => { of('chooser').close(); show(each); run(); deck.focus(); } })));
}
of('decks').onclick = () => of('chooser').showModal();
of('help').onclick = () => of('about').showModal();

const through = async (bytes, stream) => new Uint8Array(await new Response(new Blob([bytes]).stream().pipeThrough(stream)).arrayBuffer());
const letters = (bytes) => { let text = ''; for (let at = 0; at < bytes.length; at += 8192) text += String.fromCharCode(...bytes.subarray(at, at + 8192)); return btoa(text).replace(/\+/g, '-').replace(/\//g, '_').replace(/=+$/, ''); };

of('link').onclick = async () => {
  const held = { deck: deck.value, units: units.map((each) => [each.unit, each.typed, each.only]), steps: bound() };
  const packed = await through(new TextEncoder().encode(JSON.stringify(held)), new CompressionStream('deflate-raw'));
  history.replaceState(null, '', '#' + letters(packed));
  let copied = false;
  try { await navigator.clipboard.writeText(location.href); copied = true; } catch { /* the address has it */ }
  finish('good', copied ? 'The link is copied.' : 'The address of this page is the link.', '', faint(`${number(location.href.length)} letters`));
};

async function linked() {
  const text = location.hash.slice(1);
  if (!text) return false;
  try {
    const packed = Uint8Array.from(atob(text.replace(/-/g, '+').replace(/_/g, '/')), (c) => c.charCodeAt(0));
    show(JSON.parse(new TextDecoder().decode(await through(packed, new DecompressionStream('deflate-raw')))));
    return true;
  } catch { finish('bad', 'The link holds no deck.'); return false; }
}

// ---- themes, keys, the beginning

const dark = matchMedia('(prefers-color-scheme: dark)');
let theme = 'auto';
try { theme = localStorage.getItem('theme') ?? 'auto'; } catch { /* a page without storage */ }
function setTheme() {
  document.documentElement.dataset.theme = theme === 'auto' ? (dark.matches ? 'dark' : 'light') : theme;
  of('theme').textContent = { auto: 'Theme', dark: 'Dark', light: 'Light' }[theme];
}
of('theme').onclick = () => { theme = { auto: 'dark', dark: 'light', light: 'auto' }[theme]; try { localStorage.setItem('theme', theme); } catch { /* as above */ } setTheme(); };
dark.onchange = setTheme;
setTheme();

deck.oninput = changed;
deck.onscroll = repaint;
deck.onkeyup = deck.onclick = place;
new ResizeObserver(repaint).observe(deck);
of('run').onclick = run;
of('stop').onclick = () => { if (busy) stopped('stop'); };
document.addEventListener('keydown', (event) => {
  if (event.key === 'Enter' && (event.ctrlKey || event.metaKey)) { event.preventDefault(); run(); }
  else if (event.key === 'Escape' && busy && !document.querySelector('dialog[open]')) stopped('stop');
  else if (event.altKey && '1234'.includes(event.key)) { event.preventDefault(); [deck, typed, of('printed'), document.querySelector('#more > [role=tabpanel]:not([hidden])')][event.key - 1].focus(); }
  else if (event.key === 'F8') {
    event.preventDefault();
    const now = deck.value.slice(0, deck.selectionStart).split('\n').length, faulty = cards.filter((card) => card?.faults.length), next = faulty.find((card) => card.card > now) ?? faulty[0];
    if (next) goTo(next.card, next.faults[0].column);
  }
});
addEventListener('hashchange', linked);

showUnits(); showOutputs();
if (!(await linked())) show(DECKS[0]);
run();
