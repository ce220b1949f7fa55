// The module outside a browser: its calls, each on an instance of its own.
import fs from 'fs';

const ROOM = 1 << 24, TOLD = 1 << 20;
let module;

export const load = (wasm) => { module = new WebAssembly.Module(fs.readFileSync(wasm)); };

function instance(wrote = () => {}) {
  const bytes = (at, length) => Buffer.from(w.memory.buffer, Number(at), Number(length));
  const w = new WebAssembly.Instance(module, { page: { wrote: (unit, at, length) => wrote(unit, bytes(at, length)), went: () => {} } }).exports;
  const hand = (given) => { const at = w.heap_get(BigInt(given.length + 1)); bytes(at, given.length).set(given); return [at, BigInt(given.length)]; };
  const room = (length) => [w.heap_get(BigInt(length)), BigInt(length)];
  const shown = w.heap_get(24n);
  const copy = ([at, length], count) => Buffer.from(bytes(at, Math.min(count, Number(length))));
  return { w, hand, room, shown, copy, numbers: () => [...new BigUint64Array(w.memory.buffer, Number(shown), 3)].map(Number) };
}

// A run in pieces, as the page makes it. Units are rows of number, bytes and use; `wrote` hears of each record.
export function watched(deck, units, steps, wrote) {
  const m = instance(wrote), rows = new BigUint64Array(4 * units.length);
  let end = 0;
  units.forEach(([unit, bytes, only], n) => rows.set([unit, end, end += bytes.length, only].map(BigInt), 4 * n));
  const told = m.room(TOLD), given = m.hand(Buffer.from(rows.buffer));
  m.w.page_watch(...m.hand(deck), ...m.hand(Buffer.concat(units.map(([, bytes]) => bytes))), given[0], BigInt(units.length), BigInt(steps), 1000n, 250000n, ...told, m.shown);
  const [status, , count] = m.numbers();
  return { status, told: m.copy(told, count) };
}

// The whole run, of which it is proved what is handed over.
export function handed(deck, input, steps) {
  const m = instance(), out = m.room(ROOM), told = m.room(TOLD);
  m.w.page_run(...m.hand(deck), ...m.hand(input), BigInt(steps), ...out, ...told, m.shown);
  const [status, printed, count] = m.numbers();
  return { status, told: m.copy(told, count), out: m.copy(out, printed) };
}

// A listing without instructions.
export function listed(deck) {
  const m = instance(), out = m.room(ROOM);
  m.w.page_list(...m.hand(deck), 132n, 0, ...out, m.shown);
  const [status, printed] = m.numbers();
  return { status, text: m.copy(out, printed).toString('latin1') };
}
