'use strict';
// The page: documents, inputs, options and buttons. Each job carries the revision of what it is about, so a result of
// an earlier text is never shown as one of the text that is in the editor.

const at = (id) => document.getElementById(id);
const VERBS = ['check', 'compile', 'trace', 'run'];
const NEED_INPUTS = ['trace', 'run'];
const MOST_SEED = 2n ** 64n - 1n;
const PAUSE = 250;                    // after a key until the form and the browser's store follow, in milliseconds

const revision = { program: 0, runs: 0 };
let current = null;                   // the document in the editor
let shown = null;                     // the job whose result is shown
let form = null;                      // the form of the inputs
let isWorking = false;
let timer = null;

// ---- revisions

const isStale = (job) => job.revision.program !== revision.program
  || (NEED_INPUTS.includes(job.verb) && job.revision.runs !== revision.runs);

// something was changed of the program, or of the runs
function changed(part) {
  revision[part] += 1;
  if (shown && isStale(shown)) Results.makeStale(shown);
  clearTimeout(timer);
  timer = setTimeout(follow, PAUSE);
}

// what follows an edit after a pause: the form has its variables, the list its marks, and the browser keeps it all
function follow() {
  clearTimeout(timer);
  timer = null;
  if (!current.bytes) Editor.setForm(current.form());
  form.show(current.variables());
  sayDisagreements();
  markEdited();
  keep();
}

function sayDisagreements() {
  const words = form.disagreements().map(({ variable, index, one, two }) => (
    `${variable.name}${variable.isArray ? `[${index}]` : ''} (${one} and ${two})`));
  at('disagree').textContent = words.length
    ? `The public inputs differ, so the traces may differ: ${words.join(', ')}.` : '';
}

// ---- documents

function fillList() {
  const groups = Documents.GROUPS.map((label) => {
    const group = Object.assign(document.createElement('optgroup'), { label });
    group.append(...Documents.list.filter((it) => it.group === label).map((it) => new Option(it.name, it.name)));
    return group;
  });
  at('example').replaceChildren(...groups.filter((group) => group.children.length));
  if (current) at('example').value = current.name;
}

function markEdited() {
  for (const option of at('example').options) {
    const it = Documents.find(option.value);
    option.textContent = it.original && it.isEdited() ? `${it.name} (edited)` : it.name;
  }
  at('restore').classList.toggle('away', !(current.original && current.isEdited()));
}

function choose(chosen) {
  if (timer !== null) follow();
  current = chosen;
  fillList();
  Editor.open(current.text, current.bytes !== null);
  ['one', 'two'].forEach((id, run) => { at(id).value = current.inputs[run]; });
  for (const part of Object.keys(revision)) revision[part] += 1;
  shown = null;
  Results.clear();
  Verdict.say('', [current.note || 'Ready.']);
  follow();
}

let opening = 0;                      // counts the files that were opened, since reading one takes a while

async function openFile(file) {
  opening += 1;
  const mine = opening;
  try {
    const bytes = new Uint8Array(await file.arrayBuffer());
    if (mine !== opening) return;
    const found = Documents.fromFile(file.name, bytes);
    choose(found);
    Verdict.say('', [found.note || `${file.name} is open.`]);
  } catch (error) {
    Verdict.say('bad', [`${file.name} can’t be read.`, error.message]);
  }
}

function restore() {
  current.restore();
  choose(current);
}

// ---- what is kept, and links

const FIELDS = ['block-log', 'arrays', 'cycles', 'seed-1', 'seed-2'];

const optionsKept = () => ({
  ...Object.fromEntries(FIELDS.map((id) => [id, at(id).value])), paths: at('paths').checked });

function takeOptions(options = {}) {
  for (const id of FIELDS) if (typeof options[id] === 'string') at(id).value = options[id];
  at('paths').checked = options.paths === true;
  at('seeds').hidden = !at('paths').checked;
}

// keeps all in the browser, and says what isn't kept
function keep() {
  const saved = Store.save({ current: current.name, drafts: Documents.kept(), options: optionsKept() });
  const isKept = saved && !current.bytes && current.words().length <= Documents.MOST_KEPT;
  at('kept').textContent = isKept || !current.isEdited() ? ''
    : 'The browser can’t keep this text: it will be lost when the page is loaded again.';
}

async function makeLink() {
  const text = current.bytes ? null : current.words();
  if (text === null) {
    Verdict.say('bad', ['A link can’t carry a file that isn’t a text.']);
    return;
  }
  const fragment = await Store.fragmentOf({ name: current.name, text, inputs: current.inputs, options: optionsKept() });
  const field = at('link');
  field.value = location.href.replace(/#.*/, '') + fragment;
  at('link-label').hidden = false;
  field.focus();
  field.select();
}

// takes the program that the address carries, if it carries one, and takes it out of the address
async function takeLink() {
  if (!location.hash) return;
  const fragment = location.hash;
  history.replaceState(null, '', location.href.replace(/#.*/, ''));
  try {
    const value = await Store.valueOf(fragment);
    if (!value) return;
    takeOptions(value.options);
    choose(Documents.add(value.name, value.text, value.inputs));
    Verdict.say('', [`${current.name} is from the link.`]);
  } catch (error) {
    Verdict.say('bad', ['The link is damaged, so its program can’t be shown.']);
  }
}

// ---- options

// the number in a field, as it was typed; a message if it isn't one between these
function numberIn(id, least, most) {
  const words = at(id).value.trim();
  const isGood = /^\d{1,20}$/.test(words) && BigInt(words) >= least && BigInt(words) <= most;
  at(id).setAttribute('aria-invalid', String(!isGood));
  if (isGood) return words;
  const label = at(id).labels[0].textContent.trim();
  const message = `${label}: a whole number from ${least} to ${most} is needed, not “${words}”.`;
  throw Object.assign(new Error(message), { id });
}

function optionsOf(verb) {
  const needsInputs = NEED_INPUTS.includes(verb);
  const paths = needsInputs && at('paths').checked;
  return {
    cycles: needsInputs ? numberIn('cycles', 1n, 4294967295n) : '1',
    blockLog: at('block-log').value,
    fast: at('arrays').value === 'fast',
    paths,
    seeds: paths ? [numberIn('seed-1', 0n, MOST_SEED), numberIn('seed-2', 0n, MOST_SEED)] : [],
  };
}

// ---- jobs

function jobOf(verb) {
  const options = optionsOf(verb);
  const text = current.bytes ? null : current.words();
  const kind = current.form();
  return {
    verb,
    name: current.name,
    base: current.base(),
    revision: { ...revision },
    text,
    program: current.bytes || text,
    form: kind,
    inputs: [at('one').value, at('two').value],
    usages: USAGES,
    options: { ...options, procedures: kind === 'source' && text !== null && Places.hasProcedures(text) },
  };
}

// buttons stay in the order of Tab while a job is under way, so the focus isn't lost
function setWorking(on) {
  isWorking = on;
  for (const verb of VERBS) at(verb).setAttribute('aria-disabled', String(on));
  if (!on && at('working').contains(document.activeElement)) at('check').focus();
  at('working').hidden = !on;
  at('progress').removeAttribute('value');
  at('step').textContent = '';
  at('elapsed').textContent = '';
  document.body.dataset.state = on ? 'working' : 'ready';
}

function sayStep({ step, of, what }) {
  at('progress').max = of;
  at('progress').value = step;
  at('step').textContent = `${what}, step ${Math.min(step + 1, of)} of ${of}`;
}

async function doWork(verb) {
  if (isWorking) return;
  let job;
  try {
    job = jobOf(verb);
  } catch (error) {
    shown = null;
    Results.clear();
    Verdict.say('bad', [error.message]);
    at('options').open = true;
    at(error.id).focus();
    return;
  }
  setWorking(true);
  const began = performance.now();
  const clock = setInterval(() => {
    at('elapsed').textContent = `${Math.round((performance.now() - began) / 1000)} s`;
  }, 500);
  try {
    const result = await Jobs.work(job, sayStep);
    shown = job;
    Results.show(job, result, isStale(job));
    if (isStale(job)) Results.makeStale(job);
  } catch (error) {
    shown = null;
    Results.clear();
    Verdict.stopped(error);
  } finally {
    clearInterval(clock);
    setWorking(false);
    at('verdict').scrollIntoView({ block: 'nearest' });
  }
}

// ---- the start

function listenToInputs() {
  ['one', 'two'].forEach((id, run) => {
    at(id).oninput = () => {
      current.inputs[run] = at(id).value;
      form.refresh();
      changed('runs');
    };
  });
  form = new Form.View(at('form'), [at('one'), at('two')], () => {
    current.inputs = [at('one').value, at('two').value];
    sayDisagreements();
    changed('runs');
  });
  at('random').onclick = () => form.randomSecrets();
}

function listenToOptions() {
  for (const id of ['block-log', 'arrays']) at(id).onchange = () => changed('program');
  for (const id of ['cycles', 'seed-1', 'seed-2']) {
    at(id).oninput = () => {
      at(id).removeAttribute('aria-invalid');
      changed('runs');
    };
  }
  at('paths').onchange = () => {
    at('seeds').hidden = !at('paths').checked;
    changed('runs');
  };
}

function listen() {
  at('example').onchange = () => choose(Documents.find(at('example').value));
  at('open').onchange = () => {
    if (at('open').files[0]) openFile(at('open').files[0]);
    at('open').value = '';
  };
  at('restore').onclick = restore;
  at('make-link').onclick = makeLink;
  at('end').onclick = Jobs.end;
  for (const verb of VERBS) at(verb).onclick = () => doWork(verb);
  document.addEventListener('keydown', (event) => {
    if (event.key === 'Enter' && event.ctrlKey) doWork('trace');
    if (event.key === 'Escape' && isWorking) Jobs.end();
  });
  addEventListener('pagehide', () => { if (timer !== null) follow(); });
  addEventListener('hashchange', takeLink);
}

function begin() {
  for (let size = 8; size >= 3; size -= 1) at('block-log').add(new Option(2 ** size, size));
  Editor.make(at('editor'), { edited: () => changed('program'), pointed: Links.point, moved: Links.cursorAt });
  Documents.addExamples();
  listenToInputs();
  listenToOptions();
  listen();
  const kept = Store.load() || {};
  try {
    Documents.resume(kept.drafts || []);
    takeOptions(kept.options);
  } catch (error) {
    Verdict.say('bad', ['The text that the browser kept is damaged, so it isn’t shown.']);
  }
  choose(Documents.find(kept.current) || Documents.find('findmax.gr'));
  setWorking(false);
}

async function load() {
  Verdict.say('', ['The program is being loaded.']);
  document.body.dataset.state = 'loading';
  try {
    await Jobs.start();
    Verdict.say('', [current.note || 'Ready.']);
    await takeLink();
  } catch (error) {
    Verdict.say('bad', ['This browser can’t run the program of this page.', error.message]);
  }
  document.body.dataset.state = isWorking ? 'working' : 'ready';
}

begin();
load();
