'use strict';
// Verdicts: of runs that were cut off, of texts that were changed, and faults with their places.
const { element } = require('./user.js');

// two runs that differ only after a loop of some thousand cycles
const LATE = 'public int i;\npublic int x;\npublic int late[4];\ni = 0;\nwhile (i < 100) { i = i + 1; }\nx = late[0];\n';
const LOOP = 'public int i;\nwhile (i < 1) { i = 0; }\n';

async function cutOff(user) {
  await user.chooses('sum.gr');
  await user.writesProgram(LATE);
  await user.writesInputs('{"late":[1,0,0,0]}', '{"late":[2,0,0,0]}');
  await user.writesOption('cycles', '1000');
  const told = await user.presses('trace');
  user.says(told.includes('equal so far') && told.includes('Neither run has halted')
    && told.includes('Nothing is said about later cycles') && !told.includes('apart'),
  'runs that were both cut off aren’t called equal', told);
  user.says(await user.tone() !== 'good', 'and the verdict isn’t green', await user.tone());
  await user.writesOption('cycles', '10000000');
  const later = await user.presses('trace');
  user.says(later.includes('first differ at cycle') && later.includes('late[0] is 1 in run 1 and 2 in run 2'),
    'with more cycles they differ, and the cause is named', later);
  const named = await user.textOf('words-that-differ');
  user.says(/late\[0\]\s+public\s+1\s+2/.test(named), 'variable, label and both words are shown', named);
}

async function staleText(user) {
  await user.chooses('findmax.gr');
  const before = await user.presses('check');
  user.says(before.startsWith('Accepted') && await user.value(`!!${element('save')}`),
    'a fresh verdict offers the object');
  await user.clicks('.CodeMirror-scroll', [0.7, 0.1]);
  await user.browser.key('x');
  user.says(await user.isStale() && (await user.textOf('stale')).includes('was changed after this'),
    'after a key the verdict is stale', await user.textOf('stale'));
  user.says(await user.value(`${element('saves')}.children.length`) === 0, 'and Save is gone');
  const fault = await user.presses('check');
  user.says(!await user.isStale() && await user.tone() === 'bad', 'the next verdict is about the new text', fault);
  await user.clicks('#restore');
  const restored = await user.presses('check');
  user.says(restored.startsWith('Accepted'), 'the example can be restored', restored);
}

async function staleInputs(user) {
  await user.chooses('findmax.gr');
  await user.presses('check');
  await user.writes('#form input[data-run="1"]', '9');
  user.says(!await user.isStale(), 'inputs don’t change what the check says');
  await user.presses('trace');
  await user.writes('#form input[data-run="1"]', '8');
  user.says(await user.isStale(), 'they make a trace stale');
  await user.presses('trace');
  await user.writesOption('cycles', '500000');
  user.says(await user.isStale(), 'so does an option');
  await user.writesOption('cycles', '10000000');
  await user.clicks('#restore');
}

// an edit while a job is under way
async function staleJob(user) {
  await user.chooses('sum.gr');
  await user.writesProgram(LOOP);
  await user.writesInputs('{}', '{}');
  await user.writesOption('cycles', '60000000');
  await user.clicks('#trace');
  await user.clicks('.CodeMirror-scroll', [0.7, 0.1]);
  await user.browser.insert('// ');
  const working = await user.value('document.body.dataset.state');
  await user.browser.until("document.body.dataset.state === 'ready'");
  user.says(working === 'working' && await user.isStale(), 'a result of the text before is shown as stale',
    `${working} ${await user.textOf('stale')}`);
  user.says(await user.value(`${element('saves')}.children.length`) === 0, 'and offers nothing');
  await user.writesOption('cycles', '10000000');
}

const SYMBOL = '.object 1 3 1 70 2 3\n.bank 4 634\n.bank 4 662\n; a comment\n.symbol s secret scalar 0 0 0 1\nhalt\n';
const INSTRUCTION = '.object 1 3 1 70 2 3\n.bank 4 634\n.bank 4 662\nnop\nhop\nhalt\n';
const MANY = Array.from({ length: 300 }, (_, i) => `public int v${i};\n`).join('');
const CALLS = 'public int x;\nsecret int s;\nproc f(int y[]; secret int a) {\n    y[0] = a;\n}\nx = 1;\nx = s;\n';
const PROCEDURE = 'public int x;\n\nproc f(secret int a) {\n    x = a;\n}\nf(x);\n';

const FAULTS = [
  { what: 'a source', source: 'public int x;\nsecret int s;\n\nx = s;\n', marks: '4 x', says: 'Line 4, column 1: secret value flows into public variable ' },
  { what: 'a token', source: 'public int x;\nx = 1 $ 2;\n', marks: '2 $', says: 'Line 2, column 7: unexpected ' },
  { what: 'an assembly text', source: INSTRUCTION, marks: '5 hop', says: 'Line 5, column 1: unknown instruction ' },
  { what: 'a secret symbol in plain memory', source: SYMBOL, marks: '5 .symbol s secret scalar 0 0 0 1', says: '.symbol s' },
  { what: 'a text of 300 variables', source: MANY, marks: '257 v256', says: 'Line 257, column 12: v256 is one variable too many' },
  { what: 'a procedure', source: PROCEDURE, marks: '4 x', says: 'Line 4, column 5: x is a variable of the file' },
  { what: 'a fault beside procedures', source: CALLS, marks: '7 x', says: 'Line 7, column 1: secret value flows into public variable ' },
  { what: 'a rejected object', example: 'leaks.asm', marks: /^9 stw r2 0 r1$/, says: 'Line 9, instruction 4: stw r2 0 r1' },
];

// words of the command, which mean nothing on the page
const COMMAND = /--[a-z]|`(?:infer|tail|tr|asm|compile)|ghostrider |usage:/;

async function faults(user) {
  for (const { what, source, example, marks, says } of FAULTS) {
    await user.chooses(example || 'sum.gr');
    if (source) await user.writesProgram(source);
    const told = await user.presses('check');
    user.says(told.includes(says) && told.includes('fault ') && await user.tone() === 'bad',
      `the fault of ${what}`, told);
    const seen = await user.marks();
    user.says(typeof marks === 'string' ? seen === marks : marks.test(seen), 'its place is marked', seen);
    user.says(!COMMAND.test(told), 'in words of the page', told);
  }
  await user.keeps('fault');
  await user.clicks('.fault .link');
  const line = await user.value("document.querySelector('.CodeMirror').CodeMirror.getCursor().line");
  user.says(line === 8 && await user.focus() === 'source', 'its place leads into the editor',
    `${line} ${await user.focus()}`);
  await user.browser.insert(' ');
  user.says(await user.marks() === ' ', 'an edit takes the mark away', await user.marks());
}

async function inputFaults(user) {
  await user.chooses('sum.gr');
  await user.writesInputs('{}', '{"n":1,\n "q":1}');
  const told = await user.presses('run');
  user.says(told.includes('The inputs of run 2 don’t fit') && told.includes('Inputs of run 2, line 2, column 2')
    && told.includes('there is no variable '), 'the fault of inputs', told);
  await user.clicks('#restore');
}

// what the command warns of on standard error, the page says below its verdict
async function warnings(user) {
  await user.chooses('sum.gr');
  await user.writesProgram('public int x;\npublic int y;\npublic int a[4];\nx = a[5];\n');
  await user.writesInputs('{"x":1,"x":2}', '{}');
  const told = await user.presses('run');
  user.says(told.startsWith('Both runs are done') && told.includes('Line 4, column 5: warning: the index 5 is out of range')
    && told.includes('Line 2, column 12: warning: y is never used')
    && told.includes('Inputs of run 1, line 1, column 8: warning: x is given twice'), 'warnings follow the verdict', told);
  await user.keeps('warnings');
  await user.clicks('.warning .link');
  const line = await user.value("document.querySelector('.CodeMirror').CodeMirror.getCursor().line");
  user.says(line === 3, 'the place of a warning leads into the editor', line);
  await user.clicks('#restore');
}

async function spent(user) {
  await user.chooses('sum.gr');
  await user.writesProgram(LOOP);
  await user.writesInputs('{}', '{}');
  await user.writesOption('cycles', '1000');
  const told = await user.presses('run');
  user.says(told.includes('Run 1 didn’t halt within 1,000 cycles') && told.includes('Raise it under Options')
    && !COMMAND.test(told), 'a run that isn’t done within its cycles', told);
  await user.writesOption('cycles', '10000000');
}

const OPTIONS = [['cycles', 'abc', 'from 1 to 4294967295'], ['cycles', '0', 'from 1 to 4294967295'],
  ['cycles', '4294967296', 'from 1 to 4294967295'], ['cycles', '', 'from 1'], ['cycles', '1e6', 'from 1']];

async function options(user) {
  await user.chooses('sum.gr');
  for (const [id, words, says] of OPTIONS) {
    await user.writesOption(id, words);
    const told = await user.presses('trace');
    user.says(told.includes(says) && told.includes(`“${words}”`) && await user.tone() === 'bad' && await user.focus() === id,
      `“${words}” isn’t taken for a number of cycles`, told);
  }
  await user.writesOption('cycles', '10000000');
  await user.clicks('#paths');
  await user.writesOption('seed-2', '18446744073709551616');
  const told = await user.presses('trace');
  user.says(told.includes('Seed of run 2: a whole number from 0 to 18446744073709551615'),
    'nor a seed of 65 bits', told);
  await user.writesOption('seed-2', '0');
  await user.clicks('#paths');
}

module.exports = [cutOff, staleText, staleInputs, staleJob, faults, inputFaults, warnings, spent, options];
