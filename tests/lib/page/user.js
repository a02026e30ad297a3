'use strict';
// A user of the page: what is clicked and typed, and what is then seen.
const fs = require('fs');
const os = require('os');
const path = require('path');
const zlib = require('zlib');

const ROOT = path.resolve(__dirname, '../../..');
const READY = "document.body && document.body.dataset.state === 'ready'";
const element = (id) => `document.getElementById('${id}')`;

class User {
  constructor(browser, out) {
    this.browser = browser;
    this.out = out;
    this.folder = fs.mkdtempSync(path.join(os.tmpdir(), 'page-files-'));
    this.failures = 0;
  }

  says(holds, what, seen = '') {
    console.log(holds ? `ok: ${what}` : `FAILED: ${what}${seen ? `: ${String(seen).slice(0, 400)}` : ''}`);
    this.failures += holds ? 0 : 1;
  }

  // ---- the page

  async opens(url = `file://${ROOT}/page/index.html`) {
    await this.browser.goTo('about:blank');
    await this.browser.goTo(url);
    await this.browser.until(READY);
  }

  // opens the page with nothing kept of earlier visits
  async opensAnew() {
    await this.opens();
    await this.browser.value('clearTimeout(timer), timer = null, localStorage.clear()');
    await this.opens();
  }

  async reloads() {
    await this.browser.ask('Page.reload');
    await this.waits(300);
    await this.browser.until(READY);
  }

  value(expression) {
    return this.browser.value(expression);
  }

  waits(milliseconds) {
    return new Promise((resolve) => setTimeout(resolve, milliseconds));
  }

  // whether what an asynchronous function says is true within some seconds
  async soon(holds, seconds = 5) {
    const end = Date.now() + seconds * 1000;
    while (!await holds()) {
      if (Date.now() > end) return false;
      await this.waits(20);
    }
    return true;
  }

  // ---- what the user does

  async placeOf(selector, share = [0.5, 0.5]) {
    const box = await this.value(`(() => { const it = document.querySelector(${JSON.stringify(selector)});
      const seen = it.getBoundingClientRect();
      if (seen.top < 60 || seen.bottom > innerHeight) it.scrollIntoView({ block: 'center' });
      const { left, top, width, height } = it.getBoundingClientRect(); return [left, top, width, height]; })()`);
    return [box[0] + box[2] * share[0], box[1] + box[3] * share[1]];
  }

  // clicks on an element, as soon as it is seen
  async clicks(selector, share) {
    await this.browser.until(`(() => { const it = document.querySelector(${JSON.stringify(selector)});
      return it && it.offsetParent && getComputedStyle(it).visibility === 'visible'; })()`, 10);
    await this.browser.clickAt(...await this.placeOf(selector, share));
  }

  async presses(id, seconds) {
    await this.clicks(`#${id}`);
    await this.browser.until(READY, seconds);
    return this.verdict();
  }

  // chooses an example by its name, by the keys of the list, without the edits of it
  async chooses(name) {
    const place = await this.value(`[...${element('example')}.options].findIndex((it) => it.value === '${name}')`);
    await this.value(`${element('example')}.focus()`);
    await this.browser.key('End');
    await this.browser.key('Home');
    for (let i = 0; i < place; i += 1) await this.browser.key('ArrowDown');
    await this.browser.until(`${element('example')}.value === '${name}'`, 5);
    if (!await this.value(`${element('restore')}.classList.contains('away')`)) await this.clicks('#restore');
  }

  // replaces what a field or the editor has
  async writes(selector, text) {
    await this.clicks(selector);
    await this.browser.key('a', { control: true });
    if (text) await this.browser.insert(text);
    else await this.browser.key('Backspace');
  }

  async writesProgram(text) {
    await this.clicks('.CodeMirror-scroll', [0.7, 0.1]);
    await this.browser.key('a', { control: true });
    await this.browser.insert(text);
    await this.waits(300);            // the form follows after a pause
  }

  async writesInputs(one, two) {
    await this.value(`${element('json')}.open = true`);
    await this.writes('#one', one);
    await this.writes('#two', two);
  }

  async writesOption(id, text) {
    await this.value(`${element('options')}.open = true`);
    await this.writes(`#${id}`, text);
  }

  async opensFile(name, bytes) {
    const file = path.join(this.folder, name);
    fs.writeFileSync(file, bytes);
    await this.browser.chooseFile(() => this.clicks('label:has(#open)'), file);
    await this.browser.until(`/${name}.* (?:is open|is an object|isn’t UTF-8)/.test(${element('verdict')}.innerText)`, 30);
  }

  // the name and the bytes of the file that a click saves
  async saves(selector) {
    const folder = fs.mkdtempSync(path.join(this.folder, 'saved-'));
    await this.browser.saveTo(folder);
    await this.clicks(selector);
    for (let i = 0; i < 100; i += 1) {
      const [name] = fs.readdirSync(folder).filter((it) => !it.endsWith('.crdownload'));
      if (name) return { name, bytes: fs.readFileSync(path.join(folder, name)) };
      await this.waits(50);
    }
    throw new Error(`nothing was saved by ${selector}`);
  }

  // ---- what the user sees

  textOf(id) {
    return this.value(`(${element(id)} || { innerText: '' }).innerText`);
  }

  verdict() {
    return this.textOf('verdict');
  }

  tone() {
    return this.value(`${element('verdict')}.className`);
  }

  // the numbers of the lines that are marked, and the words that are underlined
  marks() {
    return this.value(`[[...document.querySelectorAll('.fault-line .CodeMirror-linenumber')].map((it) => it.textContent),
      [...document.querySelectorAll('.CodeMirror .fault')].map((it) => it.textContent)].map((it) => it.join('')).join(' ')`);
  }

  program() {
    return this.value("document.querySelector('.CodeMirror').CodeMirror.getValue()");
  }

  isStale() {
    return this.value(`${element('results')}.classList.contains('stale')`);
  }

  focus() {
    return this.value('document.activeElement.id || document.activeElement.tagName');
  }

  async keeps(name, whole) {
    fs.mkdirSync(this.out, { recursive: true });
    await this.browser.picture(path.join(this.out, `${name}.png`), whole);
  }

  leaves() {
    fs.rmSync(this.folder, { recursive: true, force: true, maxRetries: 20, retryDelay: 100 });
  }
}

// the program of the page in node, which makes the objects that the user opens
async function engine() {
  const it = require('../../../page/engine.js')();
  await it.load(zlib.gunzipSync(Buffer.from(require('../../../page/module.js'), 'base64')));
  return it;
}

module.exports = { User, ROOT, element, engine };
