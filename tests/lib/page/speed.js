'use strict';
// How long the page's thread is busy, in its own processor time.
const os = require('os');
const { element } = require('./user.js');

// other work on the machine takes the processors' caches, so it may take four times as long if half of them are taken
const CROWDED = os.loadavg()[0] > os.cpus().length / 2 ? 4 : 1;

const KEY = 50;                       // milliseconds that a key may take in a source of 1 MiB
const OPENING = 3000;                 // that a text of 5 MB may take to open
const ANSWER = 500;                   // from opening the page to its first verdict
const LISTING = 1500;                 // that a listing of 16 MiB may take to be shown

// the milliseconds that the page's thread was busy so far
async function busy(user) {
  const { metrics } = await user.browser.ask('Performance.getMetrics');
  return metrics.find((it) => it.name === 'TaskDuration').value * 1000;
}

async function taken(user, work) {
  const before = await busy(user);
  await work();
  return await busy(user) - before;
}

async function keys(user) {
  await user.browser.ask('Performance.enable', { timeDomain: 'threadTicks' });
  await user.opensFile('large.gr', 'public int x;\n'.concat('x = x + 1;\n'.repeat(95324)));
  await user.clicks('.CodeMirror-scroll', [0.7, 0.1]);
  await user.waits(1000);
  const times = [];
  for (let i = 0; i < 5; i += 1) {
    times.push(await taken(user, async () => {
      await user.browser.key('x');
      await user.value('new Promise((resolve) => requestAnimationFrame(() => setTimeout(resolve)))');
    }));
  }
  const least = Math.min(...times);
  user.says(least < KEY * CROWDED, `a key in a source of 1 MiB takes ${least.toFixed(0)} ms`, times.join());
}

// the keys that go through a source of 1 MiB, and what they light up
async function linkedKeys(user) {
  const source = `public int x;\n${'// a comment, and another, and one more\n'.repeat(25000)}${'x = x + 1;\n'.repeat(2000)}`;
  await user.opensFile('linked.gr', source);
  await user.presses('compile');
  await user.value("document.querySelector('.CodeMirror').CodeMirror.setCursor(25900, 0)");
  await user.value("document.querySelector('.CodeMirror').CodeMirror.focus()");
  await user.waits(500);
  const times = [];
  for (let i = 0; i < 5; i += 1) {
    times.push(await taken(user, async () => {
      await user.browser.key('ArrowDown');
      await user.value('new Promise((resolve) => requestAnimationFrame(() => setTimeout(resolve)))');
    }));
  }
  const least = Math.min(...times);
  user.says(least < KEY * CROWDED, `a key that lights up other instructions takes ${least.toFixed(0)} ms`, times.join());
  user.says(/^Line 25,906: \d+ instructions/.test(await user.textOf('linked')), 'and says which', await user.textOf('linked'));
}

async function opening(user) {
  const text = `.object 1 3 1 70 2 3\n.bank 4 634\n.bank 4 662\n${'add r1 r2 r3\n'.repeat(385000)}halt\n`;
  const time = await taken(user, () => user.opensFile('large.asm', text));
  user.says(time < OPENING * CROWDED, `an assembly text of 5 MB opens in ${time.toFixed(0)} ms`);
  const told = await user.presses('check');
  user.says(told.startsWith('Accepted'), 'and is checked', told);
}

async function listing(user) {
  await user.opensFile('huge.asm', `.object 1 3 1 70 2 3\n.bank 4 634\n.bank 4 662\n${'add r10 r20 r30\n'.repeat(1048575)}halt\n`);
  const time = await taken(user, () => user.presses('compile'));
  user.says(time < LISTING * CROWDED, `a listing of 16 MiB is shown in ${time.toFixed(0)} ms`);
  user.says((await user.textOf('listing')).startsWith('.object 1 3'), 'from its first line');
  await user.value(`${element('listing')}.scrollTop = 1e9`);
  await user.browser.until(`${element('listing')}.innerText.trim().endsWith('halt')`, 5);
  user.says(true, 'to its last');
}

async function firstAnswer(user) {
  await user.opensAnew();
  const times = [];
  for (let i = 0; i < 3; i += 1) {
    await user.opens();
    await user.presses('check');
    times.push(await busy(user));     // the count begins anew with a page
  }
  const least = Math.min(...times);
  user.says(least < ANSWER * CROWDED, `the page is busy for ${least.toFixed(0)} ms until its first verdict`, times.join());
}

module.exports = [keys, linkedKeys, opening, listing, firstAnswer];
