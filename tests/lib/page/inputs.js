'use strict';
// The form of the inputs.
const { element } = require('./user.js');

const BIG = 'public int n;\nsecret int a[4];\nn = n;\n';
const field = (name, run) => `#form tr[data-name="${name}"] input[data-run="${run}"]`;
const json = (user, id) => user.value(`${element(id)}.value`);

async function form(user) {
  await user.chooses('findmax.gr');
  const rows = await user.value("[...document.querySelectorAll('#form tbody tr')].map((it) => "
    + "`${it.className.split(' ')[0]} ${it.dataset.name}`).join()");
  user.says(rows === 'public n,public i,secret a,secret best,secret at',
    'a row for each variable, with its label', rows);
  const shown = await user.value(`document.querySelector('${field('a', 1)}').value`);
  user.says(shown.startsWith('-882, 863') && shown.endsWith('-508'),
    'an array is shown without the zeros at its end', shown);
  await user.writes(field('a', 1), '5, 7');
  const filled = JSON.parse(await json(user, 'one'));
  user.says(filled.a.length === 32 && filled.a[1] === 7 && filled.a[2] === 0 && filled.n === 10,
    'and filled up with zeros',
    JSON.stringify(filled));
  await user.writes(field('n', 1), '2');
  user.says((await user.textOf('disagree')).includes('n (2 and 10)'),
    'public inputs that differ are named before a run',
    await user.textOf('disagree'));
  await user.clicks('#random');
  const [one, two] = [JSON.parse(await json(user, 'one')), JSON.parse(await json(user, 'two'))];
  user.says(one.n === two.n && one.a.join() !== two.a.join() && two.a.length === 32,
    'random secrets, equal public values',
    JSON.stringify(two));
  user.says(await user.textOf('disagree') === '', 'and then no public input differs');
  user.says((await user.presses('trace')).includes('Both traces are equal: '),
    'the inputs of the form are those that run');
}

async function exactNumbers(user) {
  await user.chooses('sum.gr');
  await user.writesProgram(BIG);
  await user.writesInputs('{}', '{}');
  await user.writes(field('n', 1), '9223372036854775807');
  user.says(await json(user, 'one') === '{"n":9223372036854775807}',
    'a number keeps all its digits', await json(user, 'one'));
  await user.writesInputs('{"n":-9223372036854775808,"a":[9007199254740993,0,0,0]}', '{}');
  await user.writes(field('n', 1), '3');
  user.says(await json(user, 'one') === '{"n":3,"a":[9007199254740993,0,0,0]}', 'so do the others', await json(user,
    'one'));
  await user.writes(field('n', 1), '3x');
  const invalid = await user.value(`document.querySelector('${field('n', 1)}').getAttribute('aria-invalid')`);
  user.says(invalid === 'true' && (await json(user, 'one')).startsWith('{"n":3,'),
    'what is no number is marked, and not taken');
  await user.writes(field('a', 1), '1 2 3 4 5');
  const long = await user.value(`document.querySelector('${field('a', 1)}').getAttribute('aria-invalid')`);
  user.says(long === 'true', 'so are too many words');
  await user.writesInputs('{"n":', '{}');
  user.says((await user.presses('run')).includes('The inputs of run 1 don’t fit'),
    'JSON that is none is told by the program');
}

module.exports = [form, exactNumbers];
