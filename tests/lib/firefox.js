'use strict';
// Firefox without a window, driven by its protocol Marionette over a socket. Clicks and keys are events of the browser.
// It has as much of the interface of browser.js as the parts for both browsers need.
const { spawn } = require('child_process');
const fs = require('fs');
const net = require('net');
const os = require('os');
const path = require('path');

const NAMES = ['firefox', 'firefox-esr'];
const ELEMENT = 'element-6066-11e4-a52e-4f735466cecf';
const KEYS = { Enter: '\ue007', Tab: '\ue004', Home: '\ue011', End: '\ue010', ArrowDown: '\ue015', ArrowRight: '\ue014',
  Backspace: '\ue003' };
const CONTROL = '\ue009';
const SETTINGS = 'user_pref("marionette.port", 0);\nuser_pref("browser.shell.checkDefaultBrowser", false);\n'
  + 'user_pref("datareporting.policy.dataSubmissionEnabled", false);\n';

// the path of the browser, or null
function find() {
  const folders = (process.env.PATH || '').split(':');
  const files = folders.flatMap((folder) => NAMES.map((name) => path.resolve(folder, name)));
  return files.find((file) => fs.existsSync(file)) || null;
}

const pause = (milliseconds) => new Promise((resolve) => setTimeout(resolve, milliseconds));

class Firefox {
  static async open(file) {
    const browser = Object.assign(new Firefox(), { asked: new Map(), count: 0, rest: Buffer.alloc(0) });
    browser.folder = fs.mkdtempSync(path.join(os.tmpdir(), 'page-firefox-'));
    fs.writeFileSync(path.join(browser.folder, 'user.js'), SETTINGS);
    browser.process = spawn(file, ['--headless', '--marionette', '--no-remote', '--profile', browser.folder],
      { stdio: 'ignore' });
    const port = await browser.port();
    browser.socket = net.connect(port, '127.0.0.1');
    browser.socket.on('data', (bytes) => browser.take(bytes));
    await browser.ask('WebDriver:NewSession', { capabilities: { alwaysMatch: { acceptInsecureCerts: false } } });
    return browser;
  }

  async port() {
    const file = path.join(this.folder, 'MarionetteActivePort');
    for (let i = 0; i < 600; i += 1) {
      const words = fs.existsSync(file) ? fs.readFileSync(file, 'utf8').trim() : '';
      if (words) return Number(words);
      await pause(100);
    }
    throw new Error('Firefox doesn’t start');
  }

  // messages are `length:JSON`; the first one is a greeting
  take(bytes) {
    this.rest = Buffer.concat([this.rest, bytes]);
    for (;;) {
      const colon = this.rest.indexOf(58);
      const size = colon < 0 ? Infinity : Number(this.rest.subarray(0, colon));
      if (this.rest.length < colon + 1 + size) return;
      const message = JSON.parse(this.rest.subarray(colon + 1, colon + 1 + size));
      this.rest = this.rest.subarray(colon + 1 + size);
      if (Array.isArray(message)) this.hear(message);
    }
  }

  hear([, id, error, result]) {
    const { resolve, reject } = this.asked.get(id);
    this.asked.delete(id);
    if (error) reject(new Error(`${error.error}: ${error.message}`));
    else resolve(result);
  }

  ask(command, parameters = {}) {
    this.count += 1;
    const message = Buffer.from(JSON.stringify([0, this.count, command, parameters]));
    this.socket.write(`${message.length}:${message}`);
    return new Promise((resolve, reject) => this.asked.set(this.count, { resolve, reject }));
  }

  // the value of an expression over the page's document
  async value(expression) {
    return (await this.ask('WebDriver:ExecuteScript', { script: `return (${expression});`, args: [] })).value;
  }

  async until(expression, seconds = 60) {
    const end = Date.now() + seconds * 1000;
    while (!(await this.value(expression))) {
      if (Date.now() > end) throw new Error(`not within ${seconds} s: ${expression}`);
      await pause(30);
    }
  }

  goTo(url) {
    return this.ask('WebDriver:Navigate', { url });
  }

  act(type, id, actions, more = {}) {
    return this.ask('WebDriver:PerformActions', { actions: [{ type, id, actions, ...more }] });
  }

  key(key, { control = false } = {}) {
    const value = KEYS[key] || key;
    const pressed = [{ type: 'keyDown', value }, { type: 'keyUp', value }];
    const held = [{ type: 'keyDown', value: CONTROL }, ...pressed, { type: 'keyUp', value: CONTROL }];
    return this.act('key', 'keys', control ? held : pressed);
  }

  // types a text where the focus is
  async insert(text) {
    const { value } = await this.ask('WebDriver:GetActiveElement');
    return this.ask('WebDriver:ElementSendKeys', { id: value[ELEMENT], text });
  }

  clickAt(x, y) {
    const place = { type: 'pointerMove', x: Math.round(x), y: Math.round(y), duration: 0 };
    return this.act('pointer', 'mouse', [place, { type: 'pointerDown', button: 0 }, { type: 'pointerUp', button: 0 }],
      { parameters: { pointerType: 'mouse' } });
  }

  async picture(file) {
    const { value } = await this.ask('WebDriver:TakeScreenshot', { full: true });
    fs.writeFileSync(file, Buffer.from(value, 'base64'));
  }

  close() {
    const ended = new Promise((resolve) => this.process.once('exit', resolve));
    this.socket.destroy();
    this.process.kill();
    return ended.then(() => fs.rmSync(this.folder, { recursive: true, force: true, maxRetries: 5 }));
  }
}

module.exports = { Firefox, find };
