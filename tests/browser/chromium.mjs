// Chromium, by its own protocol.
import fs from 'fs';
import { Socket, freePort, largest, memoryBelow, sleep, start } from './protocol.mjs';

export async function open(program) {
  const port = await freePort();
  const { child, end } = start(program, (folder) => ['--headless=new', '--no-sandbox', '--disable-gpu', '--no-first-run', '--disable-background-networking', '--disable-component-update', `--user-data-dir=${folder}`, `--remote-debugging-port=${port}`, 'about:blank']);
  let page;
  for (let n = 0; n < 150 && !page; n++) {
    await sleep(150);
    try { page = (await (await fetch(`http://127.0.0.1:${port}/json`)).json()).find((each) => each.type === 'page'); } catch { /* not yet */ }
  }
  const errors = [], asked = [];
  const socket = await Socket.open(page.webSocketDebuggerUrl, ({ method, params }) => {
    if (method === 'Runtime.exceptionThrown') errors.push(params.exceptionDetails.exception?.description ?? params.exceptionDetails.text);
    if (method === 'Log.entryAdded' && params.entry.level === 'error') errors.push(params.entry.text);
    if (method === 'Network.requestWillBeSent') asked.push(params.request.url);
  });
  for (const part of ['Page', 'Runtime', 'Log', 'Network']) await socket.call(`${part}.enable`);
  const value = async (expression) => {
    const { result } = await socket.call('Runtime.evaluate', { expression, awaitPromise: true, returnByValue: true });
    if (result.exceptionDetails) throw new Error(result.exceptionDetails.exception?.description ?? 'a script failed');
    return result.result.value;
  };
  return {
    errors, asked, value, canBeDark: true,
    go: async (url) => { await socket.call('Page.navigate', { url: 'about:blank' }); await socket.call('Page.navigate', { url }); while (await value('document.readyState') !== 'complete') await sleep(50); },
    size: (width, height, mobile = false) => socket.call('Emulation.setDeviceMetricsOverride', { width, height, deviceScaleFactor: 1, mobile }),
    dark: (is) => socket.call('Emulation.setEmulatedMedia', { features: [{ name: 'prefers-color-scheme', value: is ? 'dark' : 'light' }] }),
    key: async (key, code, keyCode, modifiers = 0, text = undefined) => { for (const type of ['keyDown', 'keyUp']) await socket.call('Input.dispatchKeyEvent', { type, key, code, windowsVirtualKeyCode: keyCode, modifiers, ...(type === 'keyDown' && text ? { text } : {}) }); },
    shot: async (file) => fs.writeFileSync(file, Buffer.from((await socket.call('Page.captureScreenshot', { format: 'png' })).result.data, 'base64')),
    // What the process of the page takes, and waits.
    tab: () => largest(memoryBelow(child.pid).filter((each) => each.words.includes('--type=renderer'))),
    close: async () => { await Promise.race([socket.call('Browser.close').catch(() => {}), sleep(2000)]); await end(); },
  };
}
