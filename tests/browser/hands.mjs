// What one does with the page in a browser, and how it is told what isn't as it must be.
import path from 'path';
import { pathToFileURL } from 'url';
import { sleep } from './protocol.mjs';

const q = JSON.stringify;
export const KEYS = { Enter: [13, '\r'], Tab: [9], Escape: [27], ArrowRight: [39], ArrowLeft: [37], Home: [36], End: [35], F8: [119] };

export function hands(b, name, shots) {
  const counts = { passed: 0, failed: 0 };
  const check = (what, is, ...more) => { if (is) counts.passed++; else { counts.failed++; console.log(`${name}: ${what}`, ...more); } };
  const text = (id) => b.value(`document.getElementById(${q(id)}).textContent`);
  const click = (selector) => b.value(`(document.querySelector(${q(selector)}).click(), true)`);
  const shot = async (file) => { if (shots) await b.shot(path.join(shots, `${name}-${file}.png`)); };
  const key = (which, modifiers = 0) => { const [code, letters] = KEYS[which]; return b.key(which, which, code, modifiers, letters); };
  // However much else the machine does, what must come comes; how soon isn't looked at here.
  const until = async (expression, most = 60000) => {
    for (const began = Date.now(); Date.now() - began < most; await sleep(30)) if (await b.value(expression)) return true;
    return false;
  };
  const ended = () => until("document.body.dataset.state === 'ended'");
  // All is done that follows a run: it has been run again by page_run, where it can be.
  const settled = () => until("document.body.dataset.state === 'ended' && document.body.dataset.works === ''");
  const type = (id, given) => b.value(`(() => { const box = document.getElementById(${q(id)}); box.value = ${q(given)}; box.dispatchEvent(new Event('input')); return true; })()`);
  const run = async (deck, input = '') => { await type('deck', deck); await type('typed', input); await click('#run'); return settled(); };
  const open = async (file, hash = '') => b.go(pathToFileURL(file).href + hash);
  return { b, name, counts, check, text, click, shot, key, until, ended, settled, type, run, open };
}
