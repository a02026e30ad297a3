'use strict';
// Keys alone, focus, forced colours, the policy of the page, long jobs, and how the page looks.
const http = require('http');
const fs = require('fs');
const path = require('path');
const { ROOT, element } = require('./user.js');

const READY = "document.body.dataset.state === 'ready'";

async function keysAlone(user) {
  await user.opensAnew();
  const order = [];
  for (let i = 0; i < 9; i += 1) {
    await user.browser.key('Tab');
    order.push(await user.focus());
  }
  const wanted = ['check', 'compile', 'trace', 'run', 'example', 'open', 'make-link', 'source'];
  user.says(order.slice(0, 8).join() === wanted.join(), 'Tab goes through the page in order', order.join());
  user.says(!['source', 'BODY'].includes(order[8]), 'and out of the editor', order[8]);
  await user.value(`${element('check')}.focus()`);
  await user.browser.key('Enter');
  await user.browser.until(READY);
  user.says((await user.verdict()).startsWith('Accepted') && await user.focus() === 'check',
    'the focus stays after a job',
    await user.focus());
  await user.value(`${element('source')}.focus()`);
  await user.browser.key('Enter', { control: true });
  await user.browser.until(`${element('verdict')}.innerText.includes('Both traces are equal')`, 10);
  user.says(await user.focus() === 'source', 'Ctrl+Enter traces, and the focus stays');
  const outline = await user.value("getComputedStyle(document.querySelector('.CodeMirror')).outlineStyle");
  user.says(outline === 'solid', 'the editor shows that it has the focus', outline);
}

async function forcedColours(user) {
  await user.chooses('findmax.gr');
  await user.presses('trace');
  await user.browser.show({ media: [{ name: 'forced-colors', value: 'active' }] });
  const colours = await user.value("[...document.querySelectorAll('.key')].map((it) => getComputedStyle(it).backgroundColor)");
  user.says(new Set(colours).size === 4, 'forced colours keep the legend', colours.join());
  await user.keeps('forced-colours');
  await user.browser.show({});
}

// a script and a style that a text could bring in must not run
async function policy(user) {
  user.says(await user.value("document.querySelectorAll('noscript').length") === 1, 'without scripts the page says so');
  await user.value(`(() => { const it = document.createElement('script'); it.textContent = 'window.ran = true';
    document.body.append(it); document.body.insertAdjacentHTML('beforeend', '<i style="color: red" id="styled"></i>'); })()`);
  const ran = await user.value("[window.ran === true, document.getElementById('styled').style.color].join()");
  user.says(ran === 'false,', 'the policy stops scripts and styles of texts', ran);
  const sent = await user.value("fetch('http://127.0.0.1:9/').then(() => 'sent', (error) => error.name)");
  user.says(sent === 'TypeError', 'and any request', sent);
  user.browser.complaints.length = 0;
  user.browser.fetched.length = 0;
}

async function overHttp(user) {
  const kinds = { html: 'text/html', css: 'text/css', js: 'text/javascript' };
  const server = http.createServer((request, reply) => {
    const file = path.join(ROOT, 'page', new URL(request.url, 'http://x').pathname);
    reply.setHeader('Content-Type', kinds[file.split('.').pop()] || 'text/plain');
    fs.createReadStream(file).on('error', () => reply.writeHead(404).end()).pipe(reply);
  });
  await new Promise((resolve) => server.listen(0, '127.0.0.1', resolve));
  await user.opens(`http://127.0.0.1:${server.address().port}/index.html`);
  user.says((await user.presses('check')).startsWith('Accepted'), 'the page works from a server', await user.verdict());
  server.close();
  server.closeAllConnections();
  await user.opensAnew();
}

const LOOP = 'public int i;\nwhile (i < 1) { i = 0; }\n';

async function ended(user) {
  await user.chooses('sum.gr');
  await user.writesProgram(LOOP);
  await user.writesInputs('{}', '{}');
  await user.writesOption('cycles', '4000000000');
  await user.clicks('#run');
  await user.browser.until(`${element('step')}.innerText.startsWith('run run 1')`);
  user.says(await user.value(`${element('progress')}.value > 0 && ${element('check')}.ariaDisabled === 'true'`),
    'a long job shows how far it is');
  await user.keeps('working');
  await user.clicks('#end');
  await user.browser.until(READY);
  user.says(await user.verdict() === 'The work was ended.', 'and is ended', await user.verdict());
  user.says(await user.focus() !== 'BODY', 'the focus isn’t lost', await user.focus());
  await user.writesOption('cycles', '10000000');
  await user.chooses('sum.gr');
  user.says((await user.presses('check')).startsWith('Accepted'), 'and the page goes on', await user.verdict());
}

// A module in place of the program: its calls end in a trap, and its malloc returns this address.
const moduleOf = (address) => [0, 97, 115, 109, 1, 0, 0, 0, 1, 20, 2, 96, 1, 126, 1, 126, 96, 11, ...Array(11).fill(126), 0,
  3, 3, 2, 0, 1, 5, 3, 1, 0, 16, 7, 32, 3, 6, ...Buffer.from('memory'), 2, 0, 6, ...Buffer.from('malloc'), 0, 0,
  10, ...Buffer.from('ghost_call'), 0, 1, 10, 10, 2, 4, 0, 66, address, 11, 3, 0, 0, 11];

async function stopped(user) {
  const cases = [['want of memory', 0, 'Memory ran out'], ['a trap', 16, 'The program stopped']];
  for (const [what, address, words] of cases) {
    await user.value(`Jobs.ask({ kind: 'load', bytes: new Uint8Array([${moduleOf(address)}]) })`);
    const told = await user.presses('check');
    user.says(told.startsWith(words) && await user.tone() === 'bad', `${what} is told`, told);
    const again = await user.presses('check');
    user.says(again.startsWith('Accepted'), 'and the page goes on', again);
  }
}

const LOOKS = [[1280, 'light'], [1280, 'dark'], [1920, 'light'], [1920, 'dark'], [390, 'light'], [390, 'dark']];

async function looks(user) {
  await user.chooses('histogram.gr');
  for (const [width, scheme] of LOOKS) {
    await user.browser.show({ width, height: 900, media: [{ name: 'prefers-color-scheme', value: scheme }], touch: width < 500 });
    await user.presses('trace');
    const wide = await user.value('document.documentElement.scrollWidth');
    user.says(wide <= width, `${width} pixels, ${scheme}: nothing is cut off`, wide);
    await user.keeps(`${width}-${scheme}`);
  }
  await user.browser.show({});
}

module.exports = [keysAlone, forcedColours, policy, overHttp, ended, stopped, looks];
