'use strict';
// What is tried in Firefox too: opening, an example, stale results, and what is kept.
const { element } = require('./user.js');

async function opens(user) {
  await user.opens();
  user.says(await user.verdict() === 'Ready.', 'Firefox: the page opens from the file system', await user.verdict());
}

async function example(user) {
  const checked = await user.presses('check');
  user.says(checked.startsWith('Accepted') && await user.focus() === 'check',
    'Firefox: check, and the focus stays', checked);
  const traced = await user.presses('trace');
  user.says(traced.includes('Both traces are equal: 15 events, and both runs halt at cycle 9,829.'),
    'Firefox: trace', traced);
  const bars = await user.value("document.querySelectorAll('#picture path[data-bars]').length");
  user.says(bars === 10, 'Firefox: the picture', bars);
}

async function edits(user) {
  await user.clicks('.CodeMirror-scroll', [0.7, 0.1]);
  await user.browser.insert('$');
  user.says(await user.isStale(), 'Firefox: an edit makes the result stale', await user.textOf('stale'));
  const told = await user.presses('check');
  user.says(told.includes('unexpected ') && / \$$/.test(await user.marks()), 'Firefox: a fault is marked',
    `${told} ${await user.marks()}`);
  await user.waits(400);
  await user.opens();
  const chosen = await user.value(`${element('example')}.selectedOptions[0].textContent`);
  user.says(chosen === 'findmax.gr (edited)', 'Firefox: an edit is kept', chosen);
  await user.clicks('#restore');
  await user.writesOption('cycles', '1e3');
  user.says((await user.presses('trace')).includes('“1e3”'), 'Firefox: options are tried', await user.verdict());
  await user.keeps('firefox');
}

module.exports = [opens, example, edits];
