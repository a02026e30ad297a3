'use strict';
// The browser's part of bench/page. Its words: how often each file is checked, and the files. It prints milliseconds as
// JSON.
const path = require('path');
const { Browser, find } = require('../../tests/lib/browser.js');

const [times, ...files] = process.argv.slice(2);
const URL_OF_PAGE = `file://${path.resolve(__dirname, '../../page/index.html')}`;
const IDLE = "document.body && document.body.dataset.state === 'ready' && "
  + "document.getElementById('verdict').innerText !== 'The program is being loaded.'";

// the milliseconds from a key in a source to the picture with its letter, the middle of nine
async function keyIn(browser, text) {
  await browser.value(`document.querySelector('.CodeMirror').CodeMirror.setValue(${JSON.stringify(text)})`);
  await browser.value("document.getElementById('source').focus()");
  const taken = [];
  for (let turn = 0; turn < 9; turn += 1) {
    await browser.value('new Promise((resolve) => setTimeout(resolve, 600))');
    await browser.value("void (window.shown = new Promise((resolve) => document.addEventListener('keydown', "
      + '({ timeStamp }) => requestAnimationFrame(() => setTimeout(() => resolve(performance.now() - timeStamp))), '
      + '{ once: true })))');
    await browser.key('x');
    taken.push(await browser.value('window.shown'));
  }
  return taken.sort((a, b) => a - b)[4];
}

async function main() {
  const file = find();
  if (!file) process.exit(3);
  const told = {};
  const browser = await Browser.open(file, '1200,1500');
  try {
    const began = performance.now();
    await browser.ask('Page.navigate', { url: URL_OF_PAGE });
    await browser.until(IDLE);
    await browser.value("document.getElementById('check').click()");
    await browser.until(IDLE);
    told.opened = performance.now() - began;
    told.key = await keyIn(browser, 'public int x;\n'.concat('x = x + 1;\n'.repeat(95324)));
    for (const name of files) {
      await browser.ask('Page.navigate', { url: 'about:blank' });
      await browser.ask('Page.navigate', { url: URL_OF_PAGE });
      await browser.until(IDLE);
      const { result } = await browser.ask('Runtime.evaluate', { expression: "document.getElementById('open')" });
      await browser.ask('DOM.setFileInputFiles', { objectId: result.objectId, files: [name] });
      await browser.until("document.getElementById('verdict').innerText.includes('is an object file')");
      const taken = [];
      for (let turn = 0; turn < Number(times); turn += 1) {
        await browser.value("document.getElementById('check').click()");
        await browser.until(IDLE);
        taken.push(Number(await browser.value("document.getElementById('verdict').dataset.milliseconds")));
      }
      told[path.basename(name, '.obj')] = taken;
    }
  } finally {
    await browser.close();
  }
  console.log(JSON.stringify(told));
}

main();
