// A headless Chromium, driven over two pipes by its own protocol; no package is needed. It is looked for on the PATH.
'use strict';
const { spawn, execFileSync } = require('child_process');
const fs = require('fs');
const os = require('os');
const path = require('path');
const { pathToFileURL } = require('url');

const NAMES = ['chromium', 'chromium-browser', 'google-chrome', 'google-chrome-stable'];
const PAGE = pathToFileURL(path.join(__dirname, 'index.html')).href;

// the browser's program, or null
function find() {
  for (const name of NAMES) {
    for (const folder of (process.env.PATH || '').split(path.delimiter)) {
      const program = path.join(folder, name);
      try {
        fs.accessSync(program, fs.constants.X_OK);
        execFileSync(program, ['--version'], { stdio: 'ignore', timeout: 20000 });
        return program;
      } catch { /* not there, or it doesn't start */ }
    }
  }
  return null;
}

class Browser {
  constructor(program) {
    this.room = fs.mkdtempSync(path.join(os.tmpdir(), 'view-'));
    const words = ['--headless=new', '--no-sandbox', '--disable-gpu', '--disable-dev-shm-usage', '--hide-scrollbars', '--no-first-run', '--remote-debugging-pipe', `--user-data-dir=${this.room}`, 'about:blank'];
    this.child = spawn(program, words, { stdio: ['ignore', 'ignore', 'ignore', 'pipe', 'pipe'] });
    this.waiting = new Map();
    this.errors = [];
    this.count = 0;
    let rest = '';
    this.child.stdio[3].on('error', () => {});
    this.child.stdio[4].setEncoding('utf8').on('data', (chunk) => {
      const parts = (rest + chunk).split('\0');
      rest = parts.pop();
      parts.forEach((part) => this.receive(JSON.parse(part)));
    });
    this.child.on('exit', () => { for (const { reject } of this.waiting.values()) reject(new Error('the browser ended')); });
  }

  receive(message) {
    if (message.method === 'Runtime.exceptionThrown') this.errors.push(message.params.exceptionDetails.exception?.description || message.params.exceptionDetails.text);
    const waiter = this.waiting.get(message.id);
    if (!waiter) return;
    this.waiting.delete(message.id);
    if (message.error) waiter.reject(new Error(message.error.message)); else waiter.resolve(message.result);
  }

  send(method, params = {}, sessionId = this.session) {
    const id = ++this.count;
    this.child.stdio[3].write(JSON.stringify({ id, method, params, sessionId }) + '\0');
    return new Promise((resolve, reject) => {
      const timer = setTimeout(() => { this.waiting.delete(id); reject(new Error(`${method}: no answer in 40 seconds`)); }, 40000);
      const done = (then) => (value) => { clearTimeout(timer); then(value); };
      this.waiting.set(id, { resolve: done(resolve), reject: done(reject) });
    });
  }

  async open(hash = '', width = 1280, height = 800, scale = 1) {
    const { targetId } = await this.send('Target.createTarget', { url: 'about:blank' }, undefined);
    const { sessionId } = await this.send('Target.attachToTarget', { targetId, flatten: true }, undefined);
    this.session = sessionId;
    await this.send('Runtime.enable');
    await this.send('Page.enable');
    await this.size(width, height, scale);
    await this.send('Page.navigate', { url: PAGE + hash });
    await this.evaluate('new Promise((done) => { const look = () => document.readyState === "complete" && window.journalView ? requestAnimationFrame(() => requestAnimationFrame(done)) : setTimeout(look, 20); look(); })');
  }

  size(width, height, scale = 1) {
    return this.send('Emulation.setDeviceMetricsOverride', { width, height, deviceScaleFactor: scale, mobile: false });
  }

  // the value of an expression on the page
  async evaluate(expression) {
    const { result, exceptionDetails } = await this.send('Runtime.evaluate', { expression, awaitPromise: true, returnByValue: true });
    if (exceptionDetails) throw new Error(exceptionDetails.exception?.description || exceptionDetails.text);
    return result.value;
  }

  async picture(file) {
    const { data } = await this.send('Page.captureScreenshot', { format: 'png' });
    fs.writeFileSync(file, Buffer.from(data, 'base64'));
  }

  async close() {
    const ended = new Promise((done) => this.child.once('exit', done));
    await this.send('Browser.close', {}, undefined).catch(() => this.child.kill());
    await Promise.race([ended, new Promise((done) => setTimeout(done, 3000).unref())]);
    if (this.child.exitCode === null) this.child.kill('SIGKILL');
    fs.rmSync(this.room, { recursive: true, force: true, maxRetries: 5, retryDelay: 100 });
  }
}

module.exports = { Browser, find };
