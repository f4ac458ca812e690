// A browser that is driven over a pipe, and the server of files that it opens the page from.
import { spawn } from 'node:child_process';
import { createServer } from 'node:http';
import { existsSync, mkdtempSync, readFileSync, rmSync } from 'node:fs';
import { tmpdir } from 'node:os';
import { extname, join } from 'node:path';

const TYPES = { '.html': 'text/html', '.js': 'text/javascript', '.css': 'text/css', '.wasm': 'application/wasm', '.json': 'application/json' };
const FLAGS = ['--headless', '--no-sandbox', '--disable-gpu', '--hide-scrollbars', '--remote-debugging-pipe', '--host-resolver-rules=MAP * ~NOTFOUND , EXCLUDE 127.0.0.1'];
const KEYS = { Tab: 9, Enter: 13, ' ': 32 };

/** Hands out the files of a folder, and those that are made, by their paths. Answers its address and how to close it. */
export async function serve(folder, made) {
  const server = createServer((request, response) => {
    const path = request.url.split('?')[0], file = join(folder, path === '/' ? 'index.html' : path);
    if (!made.has(path) && !existsSync(file)) return response.writeHead(404).end();
    return response.writeHead(200, { 'content-type': TYPES[extname(file)] ?? 'text/plain' }).end(made.get(path) ?? readFileSync(file));
  });
  await new Promise(done => server.listen(0, '127.0.0.1', done));
  return { home: `http://127.0.0.1:${server.address().port}/`, close: () => server.close() };
}

/** Messages to the browser and from it, each a text that ends with a zero. */
function pipe(process_, heard) {
  const waits = new Map();
  let next = 0, rest = '';
  process_.stdio[4].on('data', data => {
    rest += data;
    for (let end = rest.indexOf('\0'); end >= 0; end = rest.indexOf('\0')) {
      const said = JSON.parse(rest.slice(0, end));
      rest = rest.slice(end + 1);
      if (said.id) waits.get(said.id)(said.result ?? { error: said.error });
      else heard(said);
    }
  });
  return (method, params = {}, sessionId = undefined) => new Promise(done => {
    waits.set(++next, done);
    process_.stdio[3].write(`${JSON.stringify({ id: next, method, params, sessionId })}\0`);
  });
}

/** Notes what goes wrong on the page and in its worker, and what they request. */
function listener(found, attached) {
  return ({ method, params }) => {
    if (method === 'Target.attachedToTarget') attached(params.sessionId);
    if (method === 'Network.requestWillBeSent') found.requests.add(params.request.url);
    if (method === 'Runtime.exceptionThrown') found.faults.push(params.exceptionDetails.exception?.description ?? params.exceptionDetails.text);
    if (method === 'Runtime.consoleAPICalled' && /error|warning|assert/.test(params.type)) found.faults.push(params.args.map(it => it.value ?? it.description).join(' '));
    if (method === 'Log.entryAdded' && /error|warning/.test(params.entry.level)) found.faults.push(`${params.entry.text} ${params.entry.url ?? ''}`);
  };
}

/** Opens a browser with one empty page. */
export async function open() {
  const folder = mkdtempSync(join(tmpdir(), 'page-browser-')), found = { requests: new Set(), faults: [] };
  const process_ = spawn(process.env.CHROMIUM ?? 'chromium', [...FLAGS, `--user-data-dir=${folder}`, 'about:blank'], { stdio: ['ignore', 'ignore', 'ignore', 'pipe', 'pipe'] });
  const listen = id => ['Network.enable', 'Runtime.enable', 'Log.enable'].forEach(it => send(it, {}, id));
  const send = pipe(process_, listener(found, listen));
  const { targetId } = await send('Target.createTarget', { url: 'about:blank' });
  const { sessionId } = await send('Target.attachToTarget', { targetId, flatten: true });
  const page = (method, params) => send(method, params, sessionId);
  await page('Page.enable');
  await page('Target.setAutoAttach', { autoAttach: true, waitForDebuggerOnStart: false, flatten: true });
  const close = () => {
    process_.once('exit', () => rmSync(folder, { recursive: true, force: true, maxRetries: 5 }));
    process_.kill();
  };
  return { page, ...found, close, ...acts(page) };
}

/** What a reader does: looks, waits, goes, presses keys. */
function acts(page) {
  const run = async expression => {
    const { result, exceptionDetails } = await page('Runtime.evaluate', { expression, awaitPromise: true, returnByValue: true });
    if (exceptionDetails) throw new Error(exceptionDetails.exception?.description ?? exceptionDetails.text);
    return result.value;
  };
  const until = async expression => {
    for (let i = 0; i < 400; i++) {
      if (await run(expression).catch(() => false)) return true;
      await new Promise(done => setTimeout(done, 50));
    }
    return false;
  };
  const go = async url => {
    await page('Page.navigate', { url: 'about:blank' });
    await page('Page.navigate', { url });
    return until('document.body?.dataset.answered > 0');
  };
  const press = async key => {
    for (const type of ['keyDown', 'keyUp']) await page('Input.dispatchKeyEvent', { type, key, code: key === ' ' ? 'Space' : key, windowsVirtualKeyCode: KEYS[key], text: type === 'keyDown' && key !== 'Tab' ? (key === 'Enter' ? '\r' : key) : undefined });
  };
  const picture = async () => Buffer.from((await page('Page.captureScreenshot', { format: 'png' })).data, 'base64');
  return { run, until, go, press, picture, type: text => page('Input.insertText', { text }) };
}
