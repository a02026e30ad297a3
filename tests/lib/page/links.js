'use strict';
// The source and its assembly: what belongs together lights up, by pointer, keys and touch.
const { element, engine } = require('./user.js');

const CALLS = `secret int a[8]; public int i;
proc add(int t[]; public int k) {
    t[k] = t[k] + 1;
}
while (i < 8) {
    add(a; i);
    i = i + 1;
}
`;

// the lit lines of the assembly, and the number of the lit line of the source
const litLines = (user) => user.value(`[...${element('listing')}.querySelectorAll('.lit')].map((it) => it.textContent)`);
const litNumber = (user) => user.value("(document.querySelector('.CodeMirror .lit .CodeMirror-linenumber') || {}).textContent");
const said = (user) => user.textOf('linked');

// the place of the first line of the assembly whose text begins so, or of a line of the source
const rowAt = async (user, start) => {
  const box = await user.value(`(() => {
    const it = [...${element('listing')}.querySelectorAll('[data-row]')].find((row) => row.textContent.startsWith('${start}'));
    it.scrollIntoView({ block: 'nearest' });
    const { left, top, height } = it.getBoundingClientRect(); return [left, top, height]; })()`);
  return [box[0] + 60, box[1] + box[2] / 2];
};

async function lineAt(user, number) {
  const box = await user.value(`(() => {
    const code = document.querySelector('.CodeMirror').CodeMirror;
    code.getWrapperElement().scrollIntoView({ block: 'center' });
    code.scrollIntoView({ line: ${number - 1}, ch: 0 }, 80);
    const { left, top, bottom } = code.charCoords({ line: ${number - 1}, ch: 0 }, 'window'); return [left, top, bottom]; })()`);
  return [box[0] + 20, (box[1] + box[2]) / 2];
}

// whether only the lines of one source line are lit, and its header is one of them
async function isLit(user, number) {
  const lines = await litLines(user);
  const own = lines.filter((it) => it.startsWith('; line '));
  return own.length > 0 && own.every((it) => it.startsWith(`; line ${number}: `)) && await litNumber(user) === String(number)
    && lines.length > own.length && (await said(user)).startsWith(`Line ${number}: `);
}

async function lights(user, number, what) {
  user.says(await user.soon(() => isLit(user, number)), what,
    `${await litNumber(user)}; ${await said(user)}; ${(await litLines(user)).join('; ')}`);
}

async function pointer(user) {
  await user.chooses('findmax.gr');
  await user.presses('compile');
  user.says((await user.textOf('listing')).startsWith('; After each line of the source'), 'the listing says what it is');
  user.says((await litLines(user)).length === 0 && await said(user) === '', 'nothing is lit at first');
  await user.browser.mouse('mouseMoved', ...await lineAt(user, 10));
  await lights(user, 10, 'pointing at a line of the source lights up its instructions');
  await user.browser.mouse('mouseMoved', ...await rowAt(user, '; line 9: '));
  await lights(user, 9, 'pointing at the assembly lights up its line');
  await user.browser.mouse('mouseMoved', 5, 5);
  user.says(await user.soon(async () => (await litLines(user)).length === 0), 'and no longer once the pointer has left');
  await user.browser.clickAt(...await rowAt(user, '; line 11: '));
  await user.browser.mouse('mouseMoved', 5, 5);
  await lights(user, 11, 'a click keeps it lit');
  await user.browser.clickAt(...await lineAt(user, 14));
  await user.browser.mouse('mouseMoved', 5, 5);
  await lights(user, 14, 'a click into the source too, and the assembly is scrolled there');
  user.says(/instructions, \d+ of them padding\. best = a\[i\];/.test(await said(user)), 'padding is counted', await said(user));
  const grey = await user.value(`[...${element('listing')}.querySelectorAll('.pads')].length`);
  user.says(grey > 0, 'and grey', grey);
  await user.keeps('links');
}

async function keys(user) {
  await user.browser.key('ArrowDown');
  await lights(user, 15, 'the cursor in the source lights up the next line');
  await user.value(`${element('listing')}.focus()`);
  await user.browser.key('Home');
  for (let i = 0; i < 40 && await litNumber(user) !== '9'; i += 1) await user.browser.key('ArrowDown');
  await lights(user, 9, 'the arrow keys go through the assembly');
  const here = await user.value(`${element('listing')}.querySelectorAll('.here').length`);
  user.says(here === 1, 'and mark where they are', here);
  await user.browser.key('End');
  user.says((await said(user)).startsWith('Start and end: '), 'to the end', await said(user));
  await user.browser.key('PageUp');
  const line = await litNumber(user);
  await user.browser.key('Enter');
  const cursor = await user.value("String(document.querySelector('.CodeMirror').CodeMirror.getCursor().line + 1)");
  user.says(line === cursor && await user.focus() === 'source', 'Enter goes to the line of the source', `${line} ${cursor}`);
  await user.browser.key('x');
  user.says((await litLines(user)).length === 0 && await said(user) === '' && await user.isStale(),
    'an edit ends the link');
  await user.clicks('#restore');
}

// taps on a place until it lights up a line, since a busy browser may drop a tap
async function taps(user, place, number) {
  for (let i = 0; i < 3; i += 1) {
    await user.browser.tapAt(...await place());
    if (await user.soon(() => isLit(user, number), 2)) return;
  }
}

async function touch(user) {
  await user.browser.show({ width: 390, height: 844, touch: true });
  await user.presses('compile');
  await taps(user, () => rowAt(user, '; line 9: '), 9);
  await lights(user, 9, 'a tap on the assembly lights up its line');
  await taps(user, () => lineAt(user, 11), 11);
  await lights(user, 11, 'and a tap on the source its instructions');
  const wide = await user.value('document.documentElement.scrollWidth');
  user.says(wide <= 390, 'nothing is cut off', wide);
  await user.browser.show({});
}

// the assembly is that of the object, with each of the options
async function assembles(user) {
  const program = await engine();
  await user.value(`${element('options')}.open = true`);
  for (const end of ['Home', 'End']) {
    await user.value(`${element('arrays')}.focus()`);
    await user.browser.key(end);
    await user.presses('compile');
    const [object, listing] = [await user.saves('#save'), await user.saves('#save-listing')];
    const { output } = program.call(['asm', 'program', 'output'], new Uint8Array(listing.bytes));
    user.says(output && Buffer.from(output).equals(object.bytes), 'the saved assembly assembles to the object');
  }
  await user.browser.clickAt(...await lineAt(user, 12));
  await lights(user, 12, 'the listing with arrays in the scratchpad is linked too');
  await user.value(`${element('arrays')}.focus()`);
  await user.browser.key('Home');
}

async function procedures(user) {
  await user.opensFile('calls.gr', CALLS);
  await user.presses('compile');
  await user.browser.clickAt(...await lineAt(user, 3));
  await lights(user, 3, 'a line of a procedure has the instructions of its calls');
  await user.browser.clickAt(...await lineAt(user, 6));
  await lights(user, 6, 'and the line of a call those of its own');
  await user.presses('run');
  const costs = await user.value("[...document.querySelectorAll('.line-cost')].length");
  user.says(costs === 4, 'a run writes the cycles of the lines of procedures', costs);
}

async function withoutSource(user) {
  await user.chooses('choose.asm');
  await user.presses('compile');
  user.says(await user.value(`!${element('linked')}`) && (await user.textOf('listing')).startsWith('.object '),
    'an assembly text has no lines to link');
}

const LOOKS = [[1280, 'light'], [1280, 'dark'], [390, 'light'], [390, 'dark']];

async function looks(user) {
  await user.chooses('findmax.gr');
  for (const [width, scheme] of LOOKS) {
    await user.browser.show({ width, height: width < 500 ? 1900 : 900, media: [{ name: 'prefers-color-scheme', value: scheme }], touch: width < 500 });
    await user.presses('compile');
    await user.browser.clickAt(...await lineAt(user, 13));
    await user.waits(200);
    await user.keeps(`links-${width}-${scheme}`, false);
  }
  await user.browser.show({});
}

module.exports = [pointer, keys, touch, assembles, procedures, withoutSource, looks];
