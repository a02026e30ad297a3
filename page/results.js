'use strict';
// What is shown of the result of a job, by the button that asked for it.

const Results = (() => {
  const { made } = Form;
  const { grouped, counted } = Marks;
  const at = (id) => document.getElementById(id);
  const MOST_OUTPUT = 65_536;         // bytes of a run's outputs that are shown
  const MOST_LISTED = 100;            // words of a list in them

  const COSTS = 'Beside each line are its cycles, with the padding in brackets.';

  let urls = [];

  function clear() {
    for (const url of urls) URL.revokeObjectURL(url);
    urls = [];
    Links.end();
    at('shown').replaceChildren();
    at('saves').replaceChildren();
    at('results').classList.remove('stale');
    at('stale').textContent = '';
    Editor.clear();
  }

  function offer(id, bytes, type, name, words) {
    const url = URL.createObjectURL(new Blob([bytes], { type }));
    urls.push(url);
    made(at('saves'), 'a', { id, class: 'button', href: url, download: name }, words);
  }

  const heading = (words) => made(at('shown'), 'h2', {}, words);

  // the outputs of a run as text, with lists cut off
  function outputWords(bytes) {
    const text = new TextDecoder().decode(bytes.subarray(0, MOST_OUTPUT));
    return text.replace(/\[([^\]]*)(\]|$)/g, (all, words, end) => {
      const list = words.split(',');
      return list.length <= MOST_LISTED ? all : `[${list.slice(0, MOST_LISTED).join(',')}, ..${end}`;
    }).replace(/,"/g, ',\n "');
  }

  const SHOWS = {
    check(result, job) {
      Layout.show(at('shown'), result.layout, job, result.reasons);
      return ['good', ['Accepted: the memory bus shows only public data in each of its runs.']];
    },
    compile(result, job) {
      heading(`The object as assembly: ${counted(result.listing.starts.length, 'line')}`);
      const show = result.listing.owners ? Links.show : Listing.show;
      show(at('shown'), result.listing, 'listing', 'The object as assembly');
      Layout.show(at('shown'), result.layout, job, result.reasons);
      offer('save-listing', result.listing.bytes, 'text/plain', `${job.base}.asm`, 'Save the assembly');
      return ['good', [`The object has ${grouped(result.object.length)} bytes.`]];
    },
    run(result, job) {
      result.outputs.forEach(({ said, bytes }, run) => {
        heading(`Run ${run + 1} halted at cycle ${grouped(Number(said.replace('halted ', '')))}`);
        made(at('shown'), 'pre', { id: `output-${run + 1}`, tabindex: 0 }, outputWords(bytes));
        offer(`save-output-${run + 1}`, bytes, 'application/json', `${job.base}-${run + 1}.json`,
          `Save the outputs of run ${run + 1}`);
      });
      return ['good', ['Both runs are done.', ...(result.profiles ? [COSTS] : [])]];
    },
    trace(result, job) {
      const verdict = Difference.verdictOf(result);
      let tree = null;
      Picture.show(at('shown'), result, (event) => tree && tree.select(event));
      Difference.show(at('shown'), result);
      const hasPaths = result.traces.some((it) => it.paths.leaves.length);
      if (job.options.paths && hasPaths) tree = Tree.show(at('shown'), result);
      Costs.show(at('shown'), result.costs);
      const members = job.inputs.map(Inputs.read);
      const meaning = Difference.meaning(result, Inputs.disagreements(Objects.read(result.object).symbols, members));
      const isEqual = verdict === Difference.VERDICTS.equal;
      return [isEqual ? 'good' : 'told', [`Accepted. ${Difference.summary(result)}`, meaning]];
    },
  };

  // shows a job's result; a fault marks its place in the editor, if the text is still the one of the job
  function show(job, result, isStale) {
    clear();
    if (result.fault) {
      const place = job.text === null ? null : Places.placeIn(job.text, Places.explained(result.fault.explained || ''));
      Verdict.fault(result.fault, job, place);
      if (place && !isStale) Editor.mark(place);
      return;
    }
    result.layout = Layout.withNames(Objects.read(result.object), result.reasons);
    offer('save', result.object, 'application/octet-stream', `${job.base}.obj`,
      `Save the object (${grouped(result.object.length)} bytes)`);
    const [tone, sentences] = SHOWS[job.verb](result, job);
    if (result.profiles && !isStale) Editor.showCosts(Profile.marksOf(result.profiles));
    Verdict.say(tone, sentences, result.done.reduce((sum, step) => sum + step.milliseconds, 0));
    Verdict.warn(result.done, job);
  }

  // greys the result that is shown, and takes the offers to save back
  function makeStale(job) {
    if (at('results').classList.contains('stale')) return;
    Links.end();
    at('results').classList.add('stale');
    at('saves').replaceChildren();
    at('stale').textContent = `Something was changed after this. This is the result for ${job.name} as it was before.`;
  }

  return { clear, show, makeStale };
})();
