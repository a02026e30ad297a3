'use strict';
// A browser without a window, driven by its own protocol over two pipes. Clicks, keys, wheel and touch are events of
// the browser, as a user's are.
const { spawn } = require('child_process');
const fs = require('fs');
const os = require('os');
const path = require('path');

const BROWSERS = ['chromium', 'chromium-browser', 'google-chrome'];
const CONTROL = 2;
const SHIFT = 8;

// the path of the browser, or null
function find() {
  const names = process.env.BROWSER ? [process.env.BROWSER] : BROWSERS;
  for (const folder of (process.env.PATH || '').split(':')) {
    for (const name of names) {
      const file = path.resolve(folder, name);
      if (fs.existsSync(file)) return file;
    }
  }
  return null;
}

// keys that type no letter, with the code by which the browser knows them
const KEY_CODES = { Enter: 13, Tab: 9, Escape: 27, Home: 36, End: 35, ArrowLeft: 37, ArrowRight: 39, ArrowUp: 38, ArrowDown: 40,
  PageUp: 33, PageDown: 34, Backspace: 8, ' ': 32 };
const KEY_TEXTS = { Enter: '\r', ' ': ' ' };

class Browser {
  static async open(file, size) {
    const browser = new Browser();
    browser.folder = fs.mkdtempSync(path.join(os.tmpdir(), 'page-'));
    const words = ['--headless=new', '--no-sandbox', '--disable-gpu', '--no-first-run', '--remote-debugging-pipe',
      '--disable-renderer-backgrounding', '--disable-background-timer-throttling',
      `--user-data-dir=${browser.folder}`, `--window-size=${size}`, 'about:blank'];
    browser.process = spawn(file, words, { stdio: ['ignore', 'ignore', 'ignore', 'pipe', 'pipe'] });
    Object.assign(browser, { asked: new Map(), count: 0, complaints: [], fetched: [], heard: new Map() });
    let rest = '';
    browser.process.stdio[4].on('data', (bytes) => {
      const messages = (rest + bytes).split('\0');
      rest = messages.pop();
      messages.forEach((message) => browser.hear(JSON.parse(message)));
    });
    const { targetInfos } = await browser.ask('Target.getTargets');
    const { targetId } = targetInfos.find((it) => it.type === 'page');
    const { sessionId } = await browser.ask('Target.attachToTarget', { targetId, flatten: true });
    browser.session = sessionId;
    for (const domain of ['Page', 'Runtime', 'Network', 'Log', 'DOM']) await browser.ask(`${domain}.enable`);
    return browser;
  }

  hear(message) {
    if (message.method === 'Runtime.exceptionThrown') {
      const { exceptionDetails: it } = message.params;
      this.complaints.push((it.exception && it.exception.description) || it.text);
    }
    if (message.method === 'Log.entryAdded' && message.params.entry.level === 'error') {
      this.complaints.push(message.params.entry.text);
    }
    if (message.method === 'Network.requestWillBeSent') this.fetched.push(message.params.request.url);
    if (this.heard.has(message.method)) {
      this.heard.get(message.method)(message.params);
      this.heard.delete(message.method);
    }
    const waiting = this.asked.get(message.id);
    if (!waiting) return;
    this.asked.delete(message.id);
    if (message.error) waiting.reject(new Error(message.error.message));
    else waiting.resolve(message.result);
  }

  // a promise of the next event of a method
  next(method) {
    return new Promise((resolve) => this.heard.set(method, resolve));
  }

  ask(method, params = {}) {
    this.count += 1;
    const message = { id: this.count, method, params };
    if (this.session) message.sessionId = this.session;
    this.process.stdio[3].write(`${JSON.stringify(message)}\0`);
    return new Promise((resolve, reject) => this.asked.set(message.id, { resolve, reject }));
  }

  // the value of an expression in the page
  async value(expression) {
    const { result, exceptionDetails: wrong } = await this.ask('Runtime.evaluate', {
      expression, awaitPromise: true, returnByValue: true });
    if (wrong) throw new Error((wrong.exception && wrong.exception.description) || wrong.text);
    return result.value;
  }

  // waits until an expression of the page is true
  async until(expression, seconds = 60) {
    const end = Date.now() + seconds * 1000;
    while (!(await this.value(expression))) {
      if (Date.now() > end) throw new Error(`not within ${seconds} s: ${expression}`);
      await new Promise((resolve) => setTimeout(resolve, 20));
    }
  }

  goTo(url) {
    return this.ask('Page.navigate', { url });
  }

  // presses a key: a letter or a name as `Enter`
  async key(key, { control = false, shift = false } = {}) {
    const text = control ? '' : KEY_TEXTS[key] || (key.length === 1 ? key : '');
    const code = KEY_CODES[key] || key.toUpperCase().charCodeAt(0);
    const modifiers = (control ? CONTROL : 0) + (shift ? SHIFT : 0);
    const place = key.length === 1 ? `Key${key.toUpperCase()}` : key;
    const named = { key, code: place, windowsVirtualKeyCode: code, modifiers };
    await this.ask('Input.dispatchKeyEvent', { type: text ? 'keyDown' : 'rawKeyDown', ...named, text });
    await this.ask('Input.dispatchKeyEvent', { type: 'keyUp', ...named });
  }

  // types a text where the focus is, at once, as an input method or the clipboard does
  insert(text) {
    return this.ask('Input.insertText', { text });
  }

  mouse(type, x, y, more = {}) {
    const button = type === 'mouseMoved' && !more.buttons ? 'none' : 'left';
    return this.ask('Input.dispatchMouseEvent', { type, x, y, button, clickCount: 1, ...more });
  }

  async clickAt(x, y) {
    await this.mouse('mouseMoved', x, y);
    await this.mouse('mousePressed', x, y, { buttons: 1 });
    await this.mouse('mouseReleased', x, y);
  }

  wheel(x, y, deltaY, control = false) {
    return this.ask('Input.dispatchMouseEvent', { type: 'mouseWheel', x, y, deltaX: 0, deltaY,
      modifiers: control ? CONTROL : 0 });
  }

  async tapAt(x, y) {
    await this.ask('Input.dispatchTouchEvent', { type: 'touchStart', touchPoints: [{ x, y }] });
    await this.ask('Input.dispatchTouchEvent', { type: 'touchEnd', touchPoints: [] });
  }

  // clicks where a file is chosen, and chooses one
  async chooseFile(click, file) {
    await this.ask('Page.setInterceptFileChooserDialog', { enabled: true });
    const opened = this.next('Page.fileChooserOpened');
    await click();
    const { backendNodeId } = await opened;
    await this.ask('DOM.setFileInputFiles', { backendNodeId, files: [file] });
  }

  saveTo(folder) {
    return this.ask('Browser.setDownloadBehavior', { behavior: 'allow', downloadPath: folder });
  }

  // a picture of the whole page, or of what is in view: a picture of the whole page scrolls what is within it back
  async picture(file, whole = true) {
    const { data } = await this.ask('Page.captureScreenshot', { format: 'png', captureBeyondViewport: whole });
    fs.writeFileSync(file, Buffer.from(data, 'base64'));
  }

  // how the page is shown: its width, its colours and whether it is touched
  async show({ width = 1280, height = 1000, media = [], touch = false }) {
    await this.ask('Emulation.setDeviceMetricsOverride', { width, height, deviceScaleFactor: 1, mobile: touch });
    await this.ask('Emulation.setEmulatedMedia', { features: media });
    await this.ask('Emulation.setTouchEmulationEnabled', { enabled: touch });
    // places are asked of the page once it is laid out anew
    await this.value('new Promise((resolve) => requestAnimationFrame(() => requestAnimationFrame(resolve)))');
  }

  close() {
    const ended = new Promise((resolve) => this.process.once('exit', resolve));
    this.process.kill();
    return ended.then(() => fs.rmSync(this.folder, { recursive: true, force: true, maxRetries: 5 }));
  }
}

module.exports = { Browser, find };
