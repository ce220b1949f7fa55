// What both browsers' protocols have in common: a process, a socket, and calls with answers.
import { spawn } from 'child_process';
import fs from 'fs';
import net from 'net';
import os from 'os';
import path from 'path';

export const sleep = (ms) => new Promise((done) => setTimeout(done, ms));

export function freePort() {
  return new Promise((done) => { const server = net.createServer().listen(0, '127.0.0.1', () => { const { port } = server.address(); server.close(() => done(port)); }); });
}

// A browser in a folder of its own.
export function start(program, words) {
  const folder = fs.mkdtempSync(path.join(os.tmpdir(), 'browser-'));
  const child = spawn(program, words(folder), { stdio: 'ignore', detached: true });
  const end = async () => {
    try { process.kill(-child.pid, 'SIGTERM'); } catch { /* it has ended */ }
    for (let n = 0; n < 20; n++) { await sleep(150); try { fs.rmSync(folder, { recursive: true, force: true }); return; } catch { /* it still writes there */ } }
  };
  return { child, end };
}

// The processes below one, with what each has in memory besides pages of files, as those of the browser's own program.
export function memoryBelow(pid) {
  const below = new Map();
  for (const name of fs.readdirSync('/proc').filter((each) => /^\d+$/.test(each))) {
    try {
      const status = fs.readFileSync(`/proc/${name}/status`, 'utf8');
      below.set(Number(name), { pid: name, parent: Number(/^PPid:\s+(\d+)/m.exec(status)[1]), kilobytes: ['RssAnon', 'RssShmem'].reduce((sum, part) => sum + Number(new RegExp(`^${part}:\\s+(\\d+)`, 'm').exec(status)?.[1] ?? 0), 0), words: fs.readFileSync(`/proc/${name}/cmdline`, 'utf8') });
    } catch { /* it ended meanwhile */ }
  }
  const isBelow = (each) => each === pid || below.has(each) && isBelow(below.get(each).parent);
  return [...below].filter(([each]) => isBelow(each)).map(([, { pid, kilobytes, words }]) => ({ pid, megabytes: kilobytes / 1024, words }));
}

// Of some processes the largest, which is that of the page: its megabytes, and how many milliseconds its thread for the page
// has been ready to run while others had the processors (none, where the system doesn't count them).
export function largest(processes) {
  const most = processes.reduce((a, b) => b.megabytes > a.megabytes ? b : a, { megabytes: 0, pid: 'self' });
  let waited = 0;
  try { waited = Number(fs.readFileSync(`/proc/${most.pid}/schedstat`, 'utf8').split(' ')[1]) / 1e6; } catch { /* not counted */ }
  return { megabytes: most.megabytes, waited };
}

export class Socket {
  constructor(socket, heard) {
    this.socket = socket; this.next = 0; this.waiting = new Map();
    socket.onmessage = (event) => {
      const message = JSON.parse(event.data);
      if (message.id === undefined) { heard(message); return; }
      this.waiting.get(message.id)?.done(message);
      this.waiting.delete(message.id);
    };
    socket.onclose = () => { for (const { failed } of this.waiting.values()) failed(new Error('the browser went away')); };
  }
  static async open(url, heard) {
    for (let n = 0; n < 200; n++) {
      try {
        const socket = new WebSocket(url);
        await new Promise((done, failed) => { socket.onopen = done; socket.onerror = failed; });
        return new Socket(socket, heard);
      } catch { await sleep(150); }
    }
    throw new Error(`no answer from ${url}`);
  }
  call(method, params = {}) {
    return new Promise((done, failed) => { const id = ++this.next; this.waiting.set(id, { done, failed }); this.socket.send(JSON.stringify({ id, method, params })); });
  }
}
