'use strict';
// What is said of a job: its verdict, or its fault with the place in the editor.

const Verdict = (() => {
  const { made } = Form;
  const { grouped } = Marks;
  const at = (id) => document.getElementById(id);

  const TITLES = {
    2: () => 'The program doesn’t take these options.',
    3: () => 'The file can’t be read.',
    4: () => 'The text is too long to be shown here.',
    5: () => 'Memory ran out, which says nothing about the program.',
    6: () => 'The file isn’t a valid object.',
    7: () => 'Rejected: the program may show secrets, or the check can’t see that it doesn’t.',
    8: () => 'The source has an error.',
    9: (run) => `The inputs of run ${run} don’t fit the program.`,
    10: (run, { cycles }) => `Run ${run} didn’t halt within ${grouped(Number(cycles))} cycles.`,
    11: () => 'The program or its inputs are too long.',
    12: () => 'The assembly text has an error.',
  };

  // the words of a verdict: a tone for its colour, and sentences
  function say(tone, sentences, milliseconds = null) {
    const verdict = at('verdict');
    verdict.className = tone;
    verdict.replaceChildren();
    for (const words of sentences.filter(Boolean)) made(verdict, 'p', {}, words);
    if (milliseconds === null) {
      delete verdict.dataset.milliseconds;
      return;
    }
    verdict.dataset.milliseconds = milliseconds;
    const shown = milliseconds < 10 ? milliseconds.toFixed(1) : Math.round(milliseconds);
    made(verdict, 'p', { class: 'quiet' }, `It took ${shown} ms.`);
  }

  // where a fault is, in words
  function whereWords({ file, line, column, instruction }, run, place) {
    const inputs = file === 'input' ? `inputs of run ${run}, ` : '';
    const words = line !== null ? `${inputs}line ${line}, column ${column}`
      : place !== null && instruction !== null ? `line ${place.line}, instruction ${instruction}`
        : instruction !== null ? `instruction ${instruction}` : '';
    return words && `${words[0].toUpperCase()}${words.slice(1)}: `;
  }

  // lines that show a text are indented, and the others are sentences
  function sayMore(verdict, lines) {
    let block = null;
    for (const line of lines) {
      if (/^ {4}/.test(line)) {
        if (block) block.textContent += `\n${line.slice(4)}`;
        else block = made(verdict, 'pre', { class: 'explained' }, line.slice(4));
      } else {
        block = null;
        made(verdict, 'p', {}, line);
      }
    }
  }

  // the run whose step this is
  const runOf = (step) => Number((/run (\d)/.exec(step.what) || [0, 1])[1]);

  // a line that says where something is, and what; the place in the editor is a link
  function sayPlaced(look, found, run, place, words) {
    const line = made(at('verdict'), 'p', { class: look });
    const where = whereWords(found, run, place);
    if (place) {
      const link = made(line, 'button', { type: 'button', class: 'link' }, where.replace(/: $/, ''));
      link.onclick = () => Editor.goTo(place);
    } else line.append(where.replace(/: $/, ''));
    line.append(where ? `: ${words}` : words);
  }

  // says what a step's fault means
  function fault(step, job, place) {
    const found = Places.explained(step.explained || '');
    const run = runOf(step);
    const title = TITLES[step.status] || (() => 'The program can’t do this.');
    say('bad', [title(run, job.options)]);
    const verdict = at('verdict');
    if (found.words) sayPlaced('fault', found, run, place, found.words);
    sayMore(verdict, found.more);
    made(verdict, 'p', { class: 'said' }, `${step.text.trim().split('\n')[0]} (status ${step.status})`);
  }

  // says the warnings of the steps that did their work, a line each
  function warn(steps, job) {
    for (const step of steps) {
      for (const line of (step.explained || '').split('\n').filter((it) => it.includes(': warning: '))) {
        const found = Places.explained(line);
        const place = job.text === null ? null : Places.placeIn(job.text, found);
        sayPlaced('warning', found, runOf(step), place, found.words);
      }
    }
  }

  // what is said if the worker stopped
  function stopped(error) {
    if (error.name === 'Ended') say('', ['The work was ended.']);
    else if (error.name === 'NoMemory' || error.name === 'RangeError') {
      say('bad', ['Memory ran out in this browser, which says nothing about the program. Allow fewer cycles, or use '
        + 'the command.']);
    } else say('bad', ['The program stopped, which says nothing about its inputs.', error.message]);
  }

  return { say, fault, warn, stopped };
})();
