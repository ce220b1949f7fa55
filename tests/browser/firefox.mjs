// Firefox, by WebDriver BiDi.
import fs from 'fs';
import { Socket, freePort, largest, memoryBelow, sleep, start } from './protocol.mjs';

const KEYS = { Home: '\uE011', End: '\uE010', Enter: '\uE007', Escape: '\uE00C', ArrowRight: '\uE014', ArrowLeft: '\uE012', Tab: '\uE004', F8: '\uE038' };

export async function open(program) {
  const port = await freePort();
  const { child, end } = start(program, (folder) => ['--headless', '--no-remote', '--profile', folder, '--remote-debugging-port', String(port), 'about:blank']);
  const errors = [], asked = [];
  const socket = await Socket.open(`ws://127.0.0.1:${port}/session`, ({ method, params }) => {
    if (method === 'log.entryAdded' && params.level === 'error') errors.push(params.text);
    if (method === 'network.beforeRequestSent') asked.push(params.request.url);
  });
  await socket.call('session.new', { capabilities: {} });
  await socket.call('session.subscribe', { events: ['log.entryAdded', 'network.beforeRequestSent'] });
  // A tab that is made has the keys, which the first one hasn't.
  const { context } = (await socket.call('browsingContext.create', { type: 'tab' })).result;
  const value = async (expression) => {
    const answer = await socket.call('script.evaluate', { expression: `(async () => JSON.stringify(await (${expression})))()`, target: { context }, awaitPromise: true });
    if (answer.result?.type !== 'success') throw new Error(answer.result?.exceptionDetails?.text ?? answer.message);
    return answer.result.result.type === 'undefined' ? undefined : JSON.parse(answer.result.result.value);
  };
  return {
    errors, asked, value,
    go: async (url) => { await socket.call('browsingContext.navigate', { context, url: 'about:blank', wait: 'complete' }); await socket.call('browsingContext.navigate', { context, url, wait: 'complete' }); },
    size: (width, height) => socket.call('browsingContext.setViewport', { context, viewport: { width, height } }),
    dark: async () => {},
    key: (key, code, keyCode, modifiers = 0) => socket.call('input.performActions', { context, actions: [{ type: 'key', id: 'keys', actions: [
      ...(modifiers & 2 ? [{ type: 'keyDown', value: '\uE009' }] : []), { type: 'keyDown', value: KEYS[key] ?? key }, { type: 'keyUp', value: KEYS[key] ?? key }, ...(modifiers & 2 ? [{ type: 'keyUp', value: '\uE009' }] : []),
    ] }] }),
    shot: async (file) => fs.writeFileSync(file, Buffer.from((await socket.call('browsingContext.captureScreenshot', { context })).result.data, 'base64')),
    tab: () => largest(memoryBelow(child.pid).filter((each) => each.words.includes('-contentproc') && each.words.includes('tab'))),
    close: async () => { await Promise.race([socket.call('browser.close').catch(() => {}), sleep(2000)]); await end(); },
  };
}
