'use strict';
// The buttons on three examples, and the page as it opens.
const { element } = require('./user.js');

const THREE = [
  { name: 'findmax.gr', events: 15, cycles: '9,829', kind: 'encrypted memory, read', count: '11', output: '"best":863' },
  { name: 'permutation.gr', kind: 'oblivious bank 2, accessed', output: '"inverse":[' },
  { name: 'choose.asm', kind: 'encrypted memory, read', output: '"m":' },
];

// the bars of a run's events of a kind
const bars = (user, run, kind) => user.value(`Array.from(document.querySelectorAll(
  '#picture path[data-run="${run}"][data-kind="${kind}"]'), (it) => Number(it.dataset.bars)).join()`);

async function opens(user) {
  await user.opensAnew();
  user.says(await user.verdict() === 'Ready.', 'the page opens from the file system', await user.verdict());
  const names = await user.value("[...document.querySelectorAll('button, select, textarea, input')].filter((it) => "
    + "!(it.labels && it.labels.length) && !it.getAttribute('aria-label') && !it.textContent.trim() "
    + '&& it.offsetParent).length');
  user.says(names === 0, 'each control has a name', names);
}

async function examples(user) {
  for (const { name, events, cycles, kind, count, output } of THREE) {
    await user.chooses(name);
    const checked = await user.presses('check');
    user.says(checked.startsWith('Accepted') && await user.tone() === 'good', `${name}: check`, checked);
    await user.presses('compile');
    const listed = /^\.object /m.test(await user.textOf('listing'));
    user.says(listed && (await user.textOf('save')).startsWith('Save the object'),
      `${name}: compile shows the assembly and offers the object`);
    await user.presses('run');
    user.says((await user.textOf('output-1')).includes(output) && (await user.textOf('shown')).includes('halted at cycle'),
      `${name}: run shows outputs`, await user.textOf('output-1'));
    const traced = await user.presses('trace');
    const sums = events ? `${events} events, and both runs halt at cycle ${cycles}.` : '';
    const alike = ['Both traces are equal: ', sums, 'tell these runs apart'].every((it) => traced.includes(it));
    user.says(alike && await user.tone() === 'good', `${name}: trace`, traced);
    const [one, two] = [await bars(user, 1, kind), await bars(user, 2, kind)];
    user.says(one === two && Number(one) > 0 && (!count || one === count), `${name}: the picture has equal bars`,
      `${one} ${two}`);
    user.says((await user.textOf('costs')).includes('computing and waiting'), `${name}: the table of costs`);
    await user.keeps(name.replace(/\W/g, '-'));
  }
}

async function leaks(user) {
  await user.chooses('permutation_public.gr');
  const told = await user.presses('trace');
  user.says(told.includes('first differ') && told.includes('p[0] is'), 'the leak shows, and its cause is named', told);
  await user.chooses('unbalanced.asm');
  const rejected = await user.presses('check');
  user.says(rejected.startsWith('Rejected') && await user.tone() === 'bad',
    'an example of a branch that leaks', rejected);
}

async function paths(user) {
  await user.chooses('lookup.asm');
  await user.value(`${element('options')}.open = true`);
  await user.clicks('#paths');
  await user.presses('trace');
  const dots = await user.value("Array.from(document.querySelectorAll('#picture path[data-paths]'), "
    + '(it) => it.dataset.paths).join()');
  user.says(/^([1-9]\d*),\1$/.test(dots), 'paths are drawn if they are chosen', dots);
  const trees = await user.value("document.querySelectorAll('#trees svg[data-leaf]').length");
  user.says(trees === 2 && (await user.textOf('shown')).includes('No theorem states'), 'each run has its tree', trees);
  await user.chooses('heappop.gr');
  await user.presses('trace');
  user.says((await user.textOf('trees')).includes('one block'),
    'a bank of one block has no paths', await user.textOf('trees'));
  await user.value(`${element('block-log')}.focus()`);
  await user.browser.key('End');
  await user.presses('trace');
  const each = await user.value("document.querySelectorAll('#trees svg[data-leaf]').length");
  user.says(each === 2, 'smaller blocks give it some', each);
  await user.clicks('#picture');
  await user.browser.key('Home');
  const lit = async () => `${await user.textOf('trees')}`;
  const first = await lit();
  for (let i = 0; i < 30; i += 1) await user.browser.key('ArrowRight');
  user.says(await lit() !== first, 'the path of the access under the cursor is lit', await lit());
  await user.keeps('paths');
  await user.value(`${element('block-log')}.focus()`);
  await user.browser.key('Home');
  await user.clicks('#paths');
  await user.presses('trace');
  const left = await user.value("document.querySelectorAll('#picture path[data-paths]').length");
  user.says(left === 0, 'and not if they aren’t');
}

async function scratchpad(user) {
  await user.chooses('histogram.gr');
  await user.presses('trace');
  const inMemory = await user.textOf('verdict');
  await user.value(`${element('options')}.open = true`);
  await user.value(`${element('arrays')}.focus()`);
  await user.browser.key('End');
  await user.presses('trace');
  const inScratchpad = await user.textOf('verdict');
  user.says(inScratchpad !== inMemory, 'arrays in the scratchpad take other cycles', inScratchpad);
  await user.presses('check');
  user.says((await user.textOf('shown')).includes('in the scratchpad during a run'),
    'the layout says which variables stay in the scratchpad', await user.textOf('shown'));
  await user.value(`${element('arrays')}.focus()`);
  await user.browser.key('Home');
}

// the reason of each place, and what each line costs
async function reasons(user) {
  await user.chooses('heappop.gr');
  await user.presses('check');
  const why = await user.value("[...document.querySelectorAll('.reasons li')].map((it) => it.textContent).join()");
  user.says(/h: oblivious: the index of h\[.*\] at \d+:\d+ is secret; an access takes \d+ cycles/.test(why),
    'each variable has the reason of its place', why);
  const beside = () => user.value("[...document.querySelectorAll('.line-cost')].map((it) => it.textContent).join(';')");
  await user.chooses('findmax.gr');
  await user.presses('run');
  const costs = await beside();
  user.says(/(^|;)[\d,.\u00a0\u202f]+ \([\d /,.\u00a0\u202f]+\)/.test(costs),
    'a run writes the cycles of each line beside it, and how many pad', costs);
  const cut = await user.value("[...document.querySelectorAll('.line-cost')].some((it) => it.scrollWidth > it.clientWidth)");
  user.says(!cut, 'none of them is cut off');
  await user.keeps('costs');
  await user.presses('check');
  user.says(await beside() === '', 'and the next job takes them away', await beside());
}

module.exports = [opens, examples, leaks, paths, scratchpad, reasons];
