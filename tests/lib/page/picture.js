'use strict';
// The picture: wheel, drag, touch and keys, and what is said of events.
const { element } = require('./user.js');

const axis = (user) => user.value("[...document.querySelectorAll('#picture text.quiet')].map((it) => it.textContent).join()");
const AXIS = "[...document.querySelectorAll('#picture text.quiet')].map((it) => it.textContent).join()";

async function moves(user) {
  await user.chooses('dijkstra.gr');
  await user.presses('trace');
  const whole = await axis(user);
  const [x, y] = await user.placeOf('#picture', [0.3, 0.3]);
  const before = await user.value('scrollY');
  await user.browser.wheel(x, y, before > 100 ? -100 : 100);
  await user.browser.until(`scrollY !== ${before}`, 5).catch(() => {});
  user.says(await user.value('scrollY') !== before && await axis(user) === whole, 'the wheel scrolls the page',
    `${before} ${await user.value('scrollY')}`);
  const [left, top] = await user.placeOf('#picture', [0.3, 0.3]);
  await user.browser.wheel(left, top, -600, true);
  await user.browser.until(`${AXIS} !== '${whole}'`, 5);
  const zoomed = await axis(user);
  user.says(true, 'with Ctrl it zooms');
  await user.browser.mouse('mousePressed', left, top, { buttons: 1 });
  await user.browser.mouse('mouseMoved', left - 100, top, { buttons: 1 });
  await user.browser.mouse('mouseMoved', left - 200, top, { buttons: 1 });
  await user.browser.mouse('mouseReleased', left - 200, top);
  await user.browser.until(`${AXIS} !== '${zoomed}'`, 5);
  user.says(true, 'dragging pans');
  await user.value(`${element('picture')}.focus()`);
  await user.browser.key('0');
  await user.browser.until(`${AXIS} === '${whole}'`, 5);
  user.says(true, 'a key shows all again');
  await user.browser.key('Home');
  await user.browser.key('ArrowRight');
  const told = await user.value(`${element('picture')}.getAttribute('aria-valuetext')`);
  user.says(/^run 1, event 2, cycle [\d,]+: .*; run 2, event 2, /.test(told), 'keys go from event to event', told);
}

async function difference(user) {
  await user.chooses('findmax.gr');
  await user.writes('#form tr[data-name="n"] input[data-run="2"]', '9');
  const told = await user.presses('trace');
  const apart = ['first differ at cycle 1, in event 1', 'n is 10 in run 1 and 9 in run 2'].every((it) => told.includes(it));
  user.says(apart && await user.tone() === 'told', 'traces that differ', told);
  user.says(await user.value("document.querySelectorAll('#picture .differ').length") === 1,
    'the mark of the difference');
  await user.clicks('#to-differ');
  await user.browser.until(`${element('under')}.innerText.includes('cycle 1:')`, 5);
  user.says((await user.textOf('under')).includes('plain memory, read: block 0 (n = 10; i = 0)'),
    'what is there is said',
    await user.textOf('under'));
  await user.keeps('differ');
}

// the words that differ are at the end of a block of 512
const FAR = 'public int x;\npublic int a[512];\nx = a[0];\n';

async function farDifference(user) {
  await user.chooses('sum.gr');
  await user.writesProgram(FAR);
  const words = (last) => JSON.stringify({ a: Array.from({ length: 512 }, (_, i) => (i === 511 ? last : 1234567)) });
  await user.writesInputs(words(7), words(8));
  await user.presses('trace');
  const named = await user.textOf('words-that-differ');
  user.says(/a\[511\]\s+public\s+7\s+8/.test(named), 'a difference at the end of a block is named in full', named);
  const sides = await user.textOf('first-difference');
  user.says(/Run 1[^]*block 1 \(a\[0\.\.511\][^]*Run 2/.test(sides), 'both events are side by side', sides);
}

async function counts(user) {
  await user.chooses('findmax.gr');
  const told = await user.presses('trace');
  const table = await user.textOf('costs');
  const shown = await user.value("document.querySelector('#picture text').textContent");
  user.says(told.includes(': 15 events') && /in all\s+15\s+9,829\s+15\s+9,829/.test(table) && /halt\s+1\s+1/.test(table)
    && shown === 'run 1: 15 events', 'verdict, picture and table count the same events', `${told} ${table} ${shown}`);
}

// a loop with a million accesses: drawn by density
const MANY = '.object 1 3 1 70 2 3\n.bank 4 1\n.bank 4 1\n.symbol n public scalar 0 0 0 1\nldb 0 D r0\nldw r2 0 r0\nli r3 1\n'
  + 'li r4 300000\nloop:\n.note 00000000 0 - - - - - - -\nldb 1 E r1\nadd r1 r1 r3\nbr lt r1 r4 -> loop\nhalt\n';

async function density(user) {
  await user.chooses('choose.asm');
  await user.writesProgram(MANY);
  await user.writesInputs('{}', '{}');
  const told = await user.presses('trace');
  user.says(told.includes('300,002 events'), 'a trace of 300,002 events', told);
  const bars = await user.value("Array.from(document.querySelectorAll('#picture path'), (it) => it.dataset.level).join()");
  user.says(/[1-4]/.test(bars), 'it is drawn by density', bars);
  const bytes = await user.value("document.querySelector('#picture svg').outerHTML.length");
  user.says(bytes < 200000, 'in a small picture', bytes);
  await user.clicks('#picture', [0.5, 0.3]);
  const under = await user.textOf('under');
  user.says(/run 1, cycles [\d,]+ to [\d,]+: [\d,]+ × encrypted memory, read/.test(under),
    'and what is there is counted', under);
  await user.keeps('density');
}

async function touch(user) {
  await user.chooses('findmax.gr');
  await user.browser.show({ width: 390, height: 844, touch: true });
  await user.presses('trace');
  await user.placeOf('#picture');
  const bar = await user.value("(() => { const it = document.querySelector('#picture path[data-kind=\"encrypted memory, read\"]')"
    + '.getBoundingClientRect(); return [it.left + 1, it.top + it.height / 2]; })()');
  await user.browser.tapAt(...bar);
  const tells = async () => {
    const told = await user.textOf('under');
    return told.includes('run 1, event 2,') && told.includes('encrypted memory, read: block');
  };
  user.says(await user.soon(tells), 'a tap says what is there', await user.textOf('under'));
  user.says(await user.value("getComputedStyle(document.querySelector('#picture svg')).touchAction") === 'pan-y',
    'a finger scrolls the page');
  await user.browser.show({});
}

module.exports = [moves, difference, farDifference, counts, density, touch];
