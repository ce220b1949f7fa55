// The worker: it has the module, and does one call at a time, each on an instance of its own, so that nothing is kept.

let module;
const encoder = new TextEncoder(), decoder = new TextDecoder();
const KEPT = 4 << 20, LAST = 1 << 16, PIECE = 250000, SOON = 40;

function instance(wrote, went) {
  const w = new WebAssembly.Instance(module, { page: { wrote, went } }).exports;
  const bytes = (at, length) => new Uint8Array(w.memory.buffer, Number(at), Number(length));
  const room = (length) => {
    const at = w.heap_get(BigInt(length));
    if (!at) throw new Error('no memory');
    return [at, BigInt(length)];
  };
  const hand = (given) => { const [at, length] = room(given.length + 1); bytes(at, given.length).set(given); return [at, length - 1n]; };
  const shown = room(24)[0], told = room(1 << 20);
  const numbers = () => [...new BigUint64Array(w.memory.buffer, Number(shown), 3)].map(Number);
  const text = ([at, length], count) => decoder.decode(bytes(at, Math.min(Number(length), count)));
  return { w, bytes, room, hand, shown, told, numbers, text };
}

// The call `page_watch`: the units are rows of number, bytes and use.
function watch(deck, units, steps, first, further, wrote, went) {
  const w = instance((unit, at, length) => wrote(unit, w.bytes(at, length)), went);
  const all = units.map((unit) => encoder.encode(unit.typed ?? '')), rows = new BigUint64Array(4 * units.length);
  let end = 0;
  units.forEach((unit, n) => rows.set([unit.unit, end, end += all[n].length, unit.only].map(BigInt), 4 * n));
  const typed = new Uint8Array(end);
  all.reduce((at, bytes) => (typed.set(bytes, at), at + bytes.length), 0);
  const given = w.hand(new Uint8Array(rows.buffer));
  const handed = [...w.hand(encoder.encode(deck)), ...w.hand(typed), given[0], BigInt(units.length), BigInt(steps), BigInt(first), BigInt(further), ...w.told, w.shown];
  const began = performance.now();
  w.w.page_watch(...handed);
  const time = performance.now() - began, [status, made, told] = w.numbers();
  return { status, made, told: w.text(w.told, told), memory: w.w.memory.buffer.byteLength, time };
}

// What was written to a unit and isn't sent yet. The first bytes are sent whole; of all further ones the last.
class Printed {
  constructor(unit) { this.unit = unit; this.count = 0; this.sent = 0; this.wait = new Uint8Array(1 << 12); this.length = 0; }
  room(more) {
    if (this.length + more <= this.wait.length) return;
    const larger = new Uint8Array(Math.max(2 * this.wait.length, this.length + more));
    larger.set(this.wait.subarray(0, this.length));
    this.wait = larger;
  }
  put(bytes) {
    const all = bytes.length + 1;
    this.count += all;
    if (all > LAST && this.sent + this.length >= KEPT) { bytes = bytes.subarray(all - LAST); this.length = 0; }
    // Beyond what is kept whole, the front of what waits gives way to the last bytes.
    if (this.sent >= KEPT && this.length + all > 4 * LAST) {
      this.wait.copyWithin(0, this.length - LAST, this.length);
      this.length = LAST;
    }
    this.room(bytes.length + 1);
    this.wait.set(bytes, this.length);
    this.length += bytes.length;
    this.wait[this.length++] = 10;
  }
  take() {
    if (!this.length) return null;
    const whole = this.sent + this.length === this.count && this.sent < KEPT;
    const from = whole ? 0 : Math.max(0, this.length - LAST);
    const bytes = this.wait.slice(from, this.length);
    if (whole) this.sent += this.length;
    else this.sent = Math.max(this.sent, KEPT);
    this.length = 0;
    return { unit: this.unit, bytes, whole, count: this.count };
  }
}

// A run, of which the page is sent what is printed as it goes.
function run({ id, deck, units, steps, second }) {
  const printed = new Map(), began = performance.now();
  let sent = 0, made = 0;
  const send = (now) => {
    sent = now;
    postMessage({ id, printed: [...printed.values()].map((each) => each.take()).filter(Boolean), made, time: now - began });
  };
  const wrote = (unit, bytes) => {
    let each = printed.get(unit);
    if (!each) printed.set(unit, each = new Printed(unit));
    each.put(bytes);
    if (each.length >= KEPT) send(performance.now());
  };
  const went = (steps) => {
    made = steps;
    const now = performance.now();
    if (now - sent > SOON) send(now);
  };
  const came = watch(deck, units, steps, Math.min(20000, steps), PIECE, wrote, went);
  made = came.made;
  send(performance.now());
  postMessage({ id, done: came });
  const bytes = [...printed.values()].reduce((sum, each) => sum + each.count, 0);
  if (came.time > 1000 || bytes > KEPT || came.status === 3) return;
  // A short run is done again, to count its steps one by one and its statements, and by the call that is proved.
  const again = collected();
  const counted = watch(deck, units, steps, came.made || 1, 1, again.wrote, () => {});
  if (!/^steps used up/.test(came.told)) postMessage({ id, steps: counted.made + 1 });
  if (second && came.time < 500) {
    const other = collected(second.unit);
    watch(second.deck, [...units, { unit: second.unit, only: 2 }], 8 * steps, 8 * steps, 1, other.wrote, () => {});
    if (other.text() === again.text()) postMessage({ id, statements: other.count() });
  }
  if (units.every((unit) => unit.unit === 5 || unit.unit === 6)) postMessage({ id, handed: handed(deck, units, steps) });
}

// What is written, in one text, and how many records went to the unit that tells of statements.
function collected(telling) {
  const parts = [];
  let count = 0;
  const wrote = (unit, bytes) => { if (unit === telling) count++; else parts.push(unit + ' ' + decoder.decode(bytes)); };
  return { wrote, text: () => parts.join('\n'), count: () => count };
}

// The call `page_run`: what it hands over is proved to be what the deck means, or a prefix of that.
function handed(deck, units, steps) {
  const w = instance(() => {}, () => {}), out = w.room(KEPT + 1);
  const typed = units.find((unit) => unit.unit === 5)?.typed ?? '';
  w.w.page_run(...w.hand(encoder.encode(deck)), ...w.hand(encoder.encode(typed)), BigInt(steps), ...out, ...w.told, w.shown);
  const [status, printed, told] = w.numbers();
  return { status, text: w.text(out, printed), told: w.text(w.told, told) };
}

function list({ id, deck, code, width }) {
  const w = instance(() => {}, () => {}), out = w.room(1 << 23);
  w.w.page_list(...w.hand(encoder.encode(deck)), BigInt(width), code ? 1 : 0, ...out, w.shown);
  const [status, printed] = w.numbers();
  postMessage({ id, status, listing: w.text(out, printed) });
}

const ENOUGH = Symbol('enough');

// A run of a deck that tells of its statements on a unit: how often each began; and of the first ones which, what the
// variables held then, and how much was printed.
function follow({ id, deck, units, steps, unit, watched, most }) {
  const counts = new Map(), trail = [], printed = new Map();
  let all = 0, next = 0, values = null, cut = false;
  const began = performance.now();
  const wrote = (to, bytes) => {
    if (to !== unit) {
      const text = decoder.decode(bytes) + '\n';
      const each = printed.get(to) ?? { text: '', count: 0 };
      each.count += bytes.length + 1;
      if (each.text.length < KEPT) each.text += text;
      printed.set(to, each);
      return;
    }
    if (next === 0) {
      const statement = Number(decoder.decode(bytes));
      if (most && all >= most) { cut = true; throw ENOUGH; }
      counts.set(statement, (counts.get(statement) ?? 0) + 1);
      all++;
      if (most) trail.push({ statement, values: values = [], printed: [...printed].map(([to, each]) => [to, each.count]) });
      if (watched) next = 1;
    } else if (values.length < next) {
      const type = decoder.decode(bytes);
      values.push(type === 'STRING' || type === 'INTEGER' ? type : { type });
      if (typeof values[next - 1] !== 'string') next = next < watched ? next + 1 : 0;
    } else {
      const text = decoder.decode(bytes);
      values[next - 1] = values[next - 1] === 'STRING' ? `'${text.length > 200 ? text.slice(0, 200) + '…' : text}'` : text;
      next = next < watched ? next + 1 : 0;
    }
  };
  let came = null;
  try { came = watch(deck, [...units, { unit, only: 2 }], steps, steps, 1, wrote, () => {}); }
  catch (error) { if (error !== ENOUGH) throw error; }
  const texts = [...printed].map(([to, each]) => [to, each.text]);
  postMessage({ id, came, cut, all, counts: [...counts], trail, printed: texts, time: performance.now() - began });
}

const CALLS = { run, list, follow };
onmessage = ({ data }) => {
  if (data.module) { module = data.module instanceof WebAssembly.Module ? data.module : new WebAssembly.Module(data.module); postMessage({ ready: true }); return; }
  try { CALLS[data.call](data); }
  catch (error) { postMessage({ id: data.id, failed: String(error) }); }
  postMessage({ over: data.id });
};
