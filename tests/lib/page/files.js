'use strict';
// Files that are opened and saved, and texts that must stay as they are, byte by byte.
const fs = require('fs');
const path = require('path');
const { ROOT, element, engine } = require('./user.js');

const MARK = '\ufeff';
const SOURCE = 'public int x;\nx = 1;\n';
const ASSEMBLY = '.object 1 3 1 70 2 3\n.bank 4 634\n.bank 4 662\nhalt\n';

const TEXTS = [
  { name: 'marked.gr', bytes: MARK + SOURCE, says: 'Line 1, column 1: unexpected character U+feff' },
  { name: 'marked.asm', bytes: MARK + ASSEMBLY, says: 'Line 1, column 1: the line has a byte order mark' },
  { name: 'returns.asm', bytes: ASSEMBLY.replace(/\n/g, '\r\n'), says: 'Line 1, column 21: the line has a carriage return' },
  { name: 'returns.gr', bytes: SOURCE.replace(/\n/g, '\r\n'), says: 'Accepted' },
  { name: 'latin.gr', bytes: Buffer.from('public int x;\n// \xe4\nx = \xe4;\n', 'latin1'), says: 'Line 3, column 5: unexpected ' },
  { name: 'latin.asm', bytes: Buffer.from(`${ASSEMBLY}; \xe4\n`, 'latin1'), says: 'The assembly text has an error' },
];

// the page must say what the command says of the same bytes
async function opensTexts(user) {
  const program = await engine();
  for (const { name, bytes, says } of TEXTS) {
    await user.opensFile(name, bytes);
    const told = await user.presses('check');
    user.says(told.includes(says), `${name}: the check`, told);
    const verb = name.endsWith('.asm') ? 'asm' : 'compile';
    const { status, text } = program.call([verb, 'program', 'output'], new Uint8Array(Buffer.from(bytes)));
    const line = Buffer.from(text).toString().trim();
    user.says(status === 0 ? told.startsWith('Accepted') : told.includes(line), `${name}: as by the command`,
      `${line} ${told}`);
  }
}

async function opensObjects(user) {
  await user.opensFile('first.obj', fs.readFileSync(path.join(ROOT, 'examples/first.obj')));
  user.says((await user.verdict()).includes('first.obj is an object file of'),
    'an object is opened', await user.verdict());
  user.says((await user.presses('check')).startsWith('Accepted'), 'and checked', await user.verdict());
  await user.presses('compile');
  user.says((await user.textOf('listing')).startsWith('.object '), 'and listed');
  await user.opensFile('leaks.obj', fs.readFileSync(path.join(ROOT, 'examples/leaks.obj')));
  const told = await user.presses('check');
  user.says(told.startsWith('Rejected') && told.includes('Instruction 4: stw r2 0 r1') && await user.marks() === ' ',
    'the fault of an object', told);
  await user.opensFile('torn.obj', Buffer.from([71, 82, 76, 84, 1, 0, 3]));
  const torn = await user.presses('check');
  user.says(torn.includes('The file isn’t a valid object') && torn.includes('truncated'), 'a torn object', torn);
  await user.opensFile('sum.obj', fs.readFileSync(path.join(ROOT, 'examples/sum.obj')));
  const names = await user.value("[...document.querySelectorAll('#form tbody tr')].map((it) => it.dataset.name).join()");
  user.says(names.length > 0, 'an object has a form of its variables', names);
}

async function procedures(user) {
  const source = fs.readdirSync(path.join(ROOT, 'examples/procedures')).find((it) => it.endsWith('.gr'));
  await user.opensFile(source, fs.readFileSync(path.join(ROOT, 'examples/procedures', source)));
  user.says((await user.presses('check')).startsWith('Accepted'),
    `procedures are compiled: ${source}`, await user.verdict());
}

async function savesFiles(user) {
  await user.opensFile('my own.gr', SOURCE);
  await user.presses('compile');
  const { name, bytes } = await user.saves('#save');
  const expected = (await engine()).call(['compile', 'program', 'output'], SOURCE).output;
  user.says(name === 'my own.obj' && Buffer.compare(bytes, Buffer.from(expected)) === 0,
    'Save has the name of the file', name);
  const listing = await user.saves('#save-listing');
  user.says(listing.name === 'my own.asm' && /^\.object /m.test(listing.bytes.toString()),
    'so has the assembly', listing.name);
  await user.chooses('findmax.gr');
  await user.presses('run');
  const output = await user.saves('#save-output-2');
  const wanted = fs.readFileSync(path.join(ROOT, 'examples/programs/findmax-2.out'), 'utf8');
  user.says(output.name === 'findmax-2.json' && output.bytes.toString() === wanted,
    'and outputs, as the command writes them',
    output.bytes.toString());
}

const EDIT = '// mine\n';

async function keepsEdits(user) {
  await user.chooses('sum.gr');
  await user.clicks('.CodeMirror-scroll', [0.7, 0.1]);
  await user.browser.key('Home', { control: true });
  await user.browser.insert(EDIT);
  const mine = await user.program();
  await user.value(`${element('example')}.focus()`);
  await user.browser.key('Home');
  user.says(await user.program() !== mine, 'another example is chosen');
  await user.opens();
  await user.value(`choose(Documents.find('sum.gr'))`);
  user.says(await user.program() === mine, 'an example that was edited is as it was left, after a reload too');
  user.says(await user.value(`${element('example')}.selectedOptions[0].textContent`) === 'sum.gr (edited)',
    'and says so');
  await user.waits(400);
  await user.reloads();
  user.says(await user.program() === mine, 'a reload shows the document that was in the editor');
  await user.clicks('#restore');
  user.says(!(await user.program()).startsWith(EDIT), 'and it can be restored');
}

async function link(user) {
  await user.opensFile('linked.gr', `${SOURCE}// µ ${MARK}\r\n`);
  await user.writesInputs('{"x":1}', '{"x":2}');
  await user.writesOption('cycles', '123');
  await user.clicks('#make-link');
  await user.browser.until(`!${element('link-label')}.hidden`);
  const url = await user.value(`${element('link')}.value`);
  const mine = await user.program();
  await user.value('clearTimeout(timer), timer = null, localStorage.clear()');
  await user.opens(url);
  await user.browser.until(`${element('verdict')}.innerText.includes('from the link')`, 5);
  const seen = await user.value(`[${element('one')}.value, ${element('two')}.value, ${element('cycles')}.value].join()`);
  user.says(await user.program() === mine && seen === '{"x":1},{"x":2},123',
    'a link carries text, inputs and options', seen);
  user.says(await user.value('location.hash') === '', 'and is taken out of the address');
  await user.opens(`${url.replace(/#.*/, '')}#1=damaged`);
  await user.browser.until(`${element('verdict')}.innerText !== 'Ready.'`, 5);
  user.says((await user.verdict()).includes('The link is damaged'), 'a damaged link', await user.verdict());
  await user.opensAnew();
}

module.exports = [opensTexts, opensObjects, procedures, savesFiles, keepsEdits, link];
