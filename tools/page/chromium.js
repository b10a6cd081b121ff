'use strict';
// A driver for a headless Chromium, by its remote debugging over a pipe:
// commands go in at descriptor 3, answers and events come out at 4, each one
// JSON ended by a NUL. It follows the Chrome DevTools Protocol (the domains
// Target, Page, Runtime, Log, Network, Input, Emulation). No package is used.
//
//   const { launch } = require('./chromium.js');
//   const browser = await launch();
//   const page = await browser.open('/path/to/file.html');
//   await page.evaluate('document.title');
//   await browser.close();

const { spawn } = require('child_process');
const fs = require('fs');
const os = require('os');
const path = require('path');
const { pathToFileURL } = require('url');

const FLAGS = [
  '--headless=new', '--no-sandbox', '--remote-debugging-pipe',
  '--no-first-run', '--no-default-browser-check', '--disable-gpu',
  '--disable-background-networking', '--disable-component-update',
  '--disable-sync', '--disable-default-apps', '--hide-scrollbars',
  '--force-color-profile=srgb', '--disable-dev-shm-usage',
  '--disable-breakpad', '--disable-crash-reporter', '--no-pings',
];

// The keys that are more than one character of text.
const KEYS = {
  Enter: { code: 'Enter', number: 13, text: '\r' },
  Tab: { code: 'Tab', number: 9 },
  Escape: { code: 'Escape', number: 27 },
  Backspace: { code: 'Backspace', number: 8 },
  Delete: { code: 'Delete', number: 46 },
  ArrowUp: { code: 'ArrowUp', number: 38 },
  ArrowDown: { code: 'ArrowDown', number: 40 },
  ArrowLeft: { code: 'ArrowLeft', number: 37 },
  ArrowRight: { code: 'ArrowRight', number: 39 },
  Home: { code: 'Home', number: 36 },
  End: { code: 'End', number: 35 },
  PageUp: { code: 'PageUp', number: 33 },
  PageDown: { code: 'PageDown', number: 34 },
  ' ': { code: 'Space', number: 32, text: ' ' },
};
const MODIFIERS = { Alt: 1, Control: 2, Meta: 4, Shift: 8 };

// The pipe: sends commands, pairs answers with them, hands events on.
class Pipe {
  constructor(input, output) {
    this.input = input;
    this.waiting = new Map();
    this.listeners = [];
    this.next = 1;
    this.ended = false;
    let parts = [];
    output.on('data', (chunk) => {
      let start = 0;
      for (let end = chunk.indexOf(0); end >= 0; end = chunk.indexOf(0, start)) {
        parts.push(chunk.subarray(start, end));
        this.take(JSON.parse(Buffer.concat(parts).toString('utf8')));
        parts = [];
        start = end + 1;
      }
      parts.push(chunk.subarray(start));
    });
    output.on('close', () => this.end());
    output.on('error', () => this.end());
    input.on('error', () => this.end());
  }

  send(method, params = {}, sessionId = undefined) {
    if (this.ended) return Promise.reject(new Error(`${method}: the browser has ended`));
    const id = this.next++;
    const answer = new Promise((resolve, reject) => this.waiting.set(id, { method, resolve, reject }));
    this.input.write(JSON.stringify({ id, method, params, sessionId }) + '\0');
    return answer;
  }

  take(message) {
    if (message.id === undefined) {
      for (const listener of [...this.listeners]) listener(message);
      return;
    }
    const { method, resolve, reject } = this.waiting.get(message.id);
    this.waiting.delete(message.id);
    if (message.error) reject(new Error(`${method}: ${message.error.message}`));
    else resolve(message.result);
  }

  end() {
    this.ended = true;
    for (const { method, reject } of this.waiting.values()) {
      reject(new Error(`${method}: the browser has ended`));
    }
    this.waiting.clear();
  }
}

// One page: what it shows, what it asked for, what it complained of.
class Page {
  constructor(pipe, sessionId, targetId) {
    this.pipe = pipe;
    this.sessionId = sessionId;
    this.targetId = targetId;
    this.requests = [];
    this.complaints = [];
    this.waits = [];
  }

  send(method, params) {
    return this.pipe.send(method, params, this.sessionId);
  }

  // An event of the page or of a frame of it that has a session of its own.
  heard(message) {
    const { method, params } = message;
    if (method === 'Network.requestWillBeSent') this.requests.push(params.request.url);
    if (method === 'Runtime.exceptionThrown') this.complaints.push(exceptionText(params.exceptionDetails));
    if (method === 'Runtime.consoleAPICalled' && ['error', 'warning', 'assert'].includes(params.type)) {
      this.complaints.push(`console.${params.type}: ${params.args.map(argumentText).join(' ')}`);
    }
    if (method === 'Log.entryAdded' && ['error', 'warning'].includes(params.entry.level)) {
      this.complaints.push(`${params.entry.source}: ${params.entry.text} ${params.entry.url || ''}`.trim());
    }
    for (const wait of [...this.waits]) wait(message);
  }

  // The next event of that name.
  next(method, milliseconds = 30000) {
    return new Promise((resolve, reject) => {
      const end = (act, value) => {
        clearTimeout(timer);
        this.waits.splice(this.waits.indexOf(wait), 1);
        act(value);
      };
      const wait = (message) => {
        if (message.method === method && message.sessionId === this.sessionId) end(resolve, message.params);
      };
      const timer = setTimeout(() => end(reject, new Error(`no ${method} in ${milliseconds} ms`)), milliseconds);
      this.waits.push(wait);
    });
  }

  async open(file) {
    const url = /^[a-z]+:/.test(file) ? file : pathToFileURL(path.resolve(file)).href;
    const loaded = this.next('Page.loadEventFired');
    const answer = await this.send('Page.navigate', { url });
    if (answer.errorText) throw new Error(`${url}: ${answer.errorText}`);
    await loaded;
    return this;
  }

  // The value of an expression, or of a function called with these values;
  // a promise is awaited.
  async evaluate(what, ...values) {
    const expression = typeof what === 'function'
      ? `(${what})(${values.map((value) => JSON.stringify(value)).join(', ')})` : what;
    const answer = await this.send('Runtime.evaluate', { expression, awaitPromise: true, returnByValue: true });
    if (answer.exceptionDetails) throw new Error(exceptionText(answer.exceptionDetails));
    return answer.result.value;
  }

  // Waits until an expression is true.
  async until(what, ...values) {
    const end = Date.now() + 30000;
    for (;;) {
      if (await this.evaluate(what, ...values)) return;
      if (Date.now() > end) throw new Error(`not in 30 seconds: ${what}`);
      await new Promise((resolve) => setTimeout(resolve, 20));
    }
  }

  // A real key, by its name or its character, as 'Enter', 'n', 'Shift+Tab'.
  async key(name) {
    const parts = name.length > 1 ? name.split('+') : [name];
    const key = parts.pop();
    const modifiers = parts.reduce((sum, part) => sum + MODIFIERS[part], 0);
    const known = KEYS[key] || { code: '', number: key.toUpperCase().charCodeAt(0), text: key };
    const text = modifiers & ~MODIFIERS.Shift ? undefined : known.text;
    const event = { key, code: known.code, windowsVirtualKeyCode: known.number, modifiers };
    await this.send('Input.dispatchKeyEvent', { ...event, type: text ? 'keyDown' : 'rawKeyDown', text });
    await this.send('Input.dispatchKeyEvent', { ...event, type: 'keyUp' });
  }

  async type(text) {
    for (const key of text) await this.key(key);
  }

  // A real click in the middle of the element that a selector finds.
  async click(selector) {
    const at = await this.evaluate((sought) => {
      const element = document.querySelector(sought);
      element.scrollIntoView({ block: 'nearest' });
      const box = element.getBoundingClientRect();
      return { x: box.x + box.width / 2, y: box.y + box.height / 2 };
    }, selector);
    await this.send('Input.dispatchMouseEvent', { type: 'mouseMoved', ...at });
    for (const type of ['mousePressed', 'mouseReleased']) {
      await this.send('Input.dispatchMouseEvent', { type, ...at, button: 'left', clickCount: 1 });
    }
  }

  async size(width, height) {
    await this.send('Emulation.setDeviceMetricsOverride', { width, height, deviceScaleFactor: 1, mobile: false });
  }

  // 'dark' or 'light'; further media features as { 'prefers-reduced-motion': 'reduce' }.
  async scheme(name, more = {}) {
    const features = Object.entries({ 'prefers-color-scheme': name, ...more });
    await this.send('Emulation.setEmulatedMedia', { features: features.map(([key, value]) => ({ name: key, value })) });
  }

  // A picture of what is seen, or of the element that a selector finds.
  async picture(file, selector = undefined) {
    const clip = selector && await this.evaluate((sought) => {
      const box = document.querySelector(sought).getBoundingClientRect();
      return { x: box.x, y: box.y, width: box.width, height: box.height, scale: 1 };
    }, selector);
    const { data } = await this.send('Page.captureScreenshot', { format: 'png', clip });
    fs.mkdirSync(path.dirname(path.resolve(file)), { recursive: true });
    fs.writeFileSync(file, Buffer.from(data, 'base64'));
    return fs.statSync(file).size;
  }

  // The accessibility tree, as a flat list of roles and names.
  async accessibility() {
    const { nodes } = await this.send('Accessibility.getFullAXTree');
    return nodes.filter((node) => !node.ignored)
      .map((node) => ({ role: node.role && node.role.value, name: (node.name && node.name.value) || '' }));
  }

  close() {
    return this.pipe.send('Target.closeTarget', { targetId: this.targetId });
  }
}

function argumentText(value) {
  return value.value !== undefined ? String(value.value) : value.description || value.type;
}

function exceptionText(details) {
  const thrown = details.exception && (details.exception.description || details.exception.value);
  return `${details.text} ${thrown || ''} (${details.url || ''}:${details.lineNumber + 1})`;
}

class Browser {
  constructor(child, directory) {
    this.child = child;
    this.directory = directory;
    this.pages = new Map();
    this.pipe = new Pipe(child.stdio[3], child.stdio[4]);
    this.pipe.listeners.push((message) => this.heard(message));
    this.exited = new Promise((resolve) => child.once('exit', resolve));
  }

  heard(message) {
    const page = this.pages.get(message.sessionId);
    if (!page) return;
    if (message.method === 'Target.attachedToTarget') this.take(page, message.params);
    page.heard(message);
  }

  // A frame that has a process of its own is heard as a part of its page.
  take(page, { sessionId, waitingForDebugger }) {
    this.pages.set(sessionId, page);
    this.listen(sessionId, waitingForDebugger).catch(() => {});
  }

  async listen(sessionId, waiting) {
    const send = (method, params) => this.pipe.send(method, params, sessionId);
    const attach = { autoAttach: true, waitForDebuggerOnStart: true, flatten: true };
    const asked = [
      send('Target.setAutoAttach', attach), send('Page.enable'), send('Runtime.enable'),
      send('Log.enable'), send('Network.enable'),
    ];
    if (waiting) asked.push(send('Runtime.runIfWaitingForDebugger'));
    await Promise.all(asked);
  }

  // A new page; with a file, opened from disk.
  async open(file = undefined, width = 1280, height = 800) {
    const { targetId } = await this.pipe.send('Target.createTarget', { url: 'about:blank' });
    const { sessionId } = await this.pipe.send('Target.attachToTarget', { targetId, flatten: true });
    const page = new Page(this.pipe, sessionId, targetId);
    this.pages.set(sessionId, page);
    await this.listen(sessionId, false);
    await page.size(width, height);
    if (file) await page.open(file);
    return page;
  }

  async version() {
    return (await this.pipe.send('Browser.getVersion')).product;
  }

  async close() {
    const late = setTimeout(() => this.child.kill('SIGKILL'), 5000);
    await this.pipe.send('Browser.close').catch(() => {});
    await this.exited;
    clearTimeout(late);
    fs.rmSync(this.directory, { recursive: true, force: true, maxRetries: 5, retryDelay: 100 });
  }
}

// Starts a Chromium with a profile of its own that is taken away at its end.
// CHROMIUM names another program than `chromium`.
async function launch(flags = []) {
  const directory = fs.mkdtempSync(path.join(os.tmpdir(), 'cepage-chromium-'));
  const words = [...FLAGS, `--user-data-dir=${directory}`, ...flags, 'about:blank'];
  const child = spawn(process.env.CHROMIUM || 'chromium', words, { stdio: ['ignore', 'ignore', 'ignore', 'pipe', 'pipe'] });
  process.once('exit', () => child.kill('SIGKILL'));
  await new Promise((resolve, reject) => {
    child.once('spawn', resolve);
    child.once('error', reject);
  });
  return new Browser(child, directory);
}

module.exports = { launch };
