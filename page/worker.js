'use strict';
// The work of the page, in a thread of its own: the calls of the program that a button asks for, in sequence. Like the
// engine this is a function, of whose text the page makes its worker.

function ghostWorker(engine, objects, marks, tell) {
  const STATUS_SPENT = 10;
  const STEPS = { check: 2, compile: 2, run: 4, trace: 4 };
  const MOST_SAID = 4000;             // bytes of a step's text that are passed on
  const NO_OWNER = 0xffffffff;        // of a line of a listing before the first instruction
  const decoder = new TextDecoder();

  // The steps of a job. Each has the words of its call and the two files that it reads. The program is an object, an
  // assembly text or a source. A step that fails is thrown.
  class Work {
    constructor(job) {
      this.job = job;
      this.done = [];
      this.total = STEPS[job.verb] - (job.form === 'object' ? 1 : 0);
    }

    // calls the program; a status that isn't among these ends the job
    call(what, words, first, second, good = [0]) {
      tell({ kind: 'step', what, step: this.done.length, of: this.total });
      const began = performance.now();
      const { status, text, output } = engine.call(words, first, second);
      const step = { what, words, status, output, text, milliseconds: performance.now() - began };
      this.done.push(step);
      step.explained = engine.explain(status, this.job.usages[words[0]] || '', words, first, second);
      if (good.includes(status)) return step;
      throw step;
    }

    // the options of a compilation
    compilation() {
      const { options } = this.job;
      const size = options.blockLog ? ['--block-log', options.blockLog] : [];
      const procedures = options.procedures ? ['--procs'] : [];
      const fast = options.fast ? ['--fast'] : [];
      return [...size, ...fast, ...procedures];
    }

    made() {
      const { form, program } = this.job;
      if (form === 'object') return program;
      if (form === 'assembly') return this.call('assemble', ['asm', 'program', 'output'], program).output;
      return this.call('compile', ['compile', 'program', 'output', ...this.compilation()], program).output;
    }

    // the bytes that a tool prints about a source; null for other programs, and if the tool fails
    printed(words, input, good = [0]) {
      if (this.job.form !== 'source') return null;
      const { status, text } = engine.tool([...words, ...this.compilation()], this.job.program, input);
      return good.includes(status) ? text : null;
    }

    told(words, input, good) {
      const text = this.printed(words, input, good);
      return text && decoder.decode(text);
    }

    // the name of each variable, and why it is where it is
    reasons() {
      return this.told(['layout', 'program']);
    }

    // the assembly of a source with the lines that it was made of, and of other programs without lines
    listing(object) {
      tell({ kind: 'step', what: 'list', step: this.total - 1, of: this.total });
      const bytes = this.printed(['listing', 'program']);
      if (!bytes) return listingOf(this.call('disassemble', ['dis', 'program', 'output'], object).output);
      return linkedListing(bytes);
    }

    // what each line costs in both runs
    profiles() {
      const words = ['profile', 'program', 'input', '--cycles', this.job.options.cycles];
      const tables = this.job.inputs.map((input) => this.told(words, input, [0, STATUS_SPENT]));
      return tables.includes(null) ? null : tables;
    }

    checked() {
      const object = this.made();
      this.call('check', ['check', 'program'], object);
      return object;
    }

    both(what, words, good) {
      const object = this.checked();
      const steps = this.job.inputs.map((input, run) => (
        this.call(`${what} run ${run + 1}`, words(run), object, input, good)));
      return { object, steps };
    }

    check() {
      const object = this.checked();
      return { object, reasons: this.reasons() };
    }

    compile() {
      const object = this.made();
      return { object, reasons: this.reasons(), listing: this.listing(object) };
    }

    run() {
      const { object, steps } = this.both('run',
        () => ['run', 'program', 'input', 'output', '--cycles', this.job.options.cycles]);
      const outputs = steps.map(({ text, output }) => ({ said: decoder.decode(text).trim(), bytes: output }));
      return { object, outputs, profiles: this.profiles() };
    }

    trace() {
      const { cycles, paths, seeds } = this.job.options;
      const more = (run) => (paths ? ['--paths', '--seed', seeds[run]] : []);
      const { object, steps } = this.both('trace',
        (run) => ['trace', 'program', 'input', '--cycles', cycles, ...more(run)], [0, STATUS_SPENT]);
      tell({ kind: 'step', what: 'compare', step: this.total, of: this.total });
      const traces = steps.map((step) => engine.traceOf(step.text));
      const { banks } = objects.read(object);
      return {
        object,
        reasons: this.job.options.procedures ? this.reasons() : null,
        traces: traces.map((trace) => ({ ...trace, byKind: marks.stampsByKind(trace) })),
        differ: engine.firstDifference(...traces),
        costs: traces.map((trace) => marks.costOf(trace, banks, Number(cycles))),
      };
    }
  }

  // where the lines of a text begin
  function startsOf(bytes) {
    let count = 1;
    for (let at = bytes.indexOf(10); at >= 0; at = bytes.indexOf(10, at + 1)) count += 1;
    const starts = new Uint32Array(count);
    let at = 0;
    for (let line = 1; line < count; line += 1) {
      at = bytes.indexOf(10, at) + 1;
      starts[line] = at;
    }
    return at === bytes.length && count > 1 ? starts.subarray(0, count - 1) : starts;
  }

  const listingOf = (bytes) => ({ bytes, starts: startsOf(bytes), owners: null });

  const SEMICOLON = 59;
  const HEAD = /^; (?:line (\d+): |start and end$)/;

  // the owner that a comment names for the lines after it, or the one before if it names none
  function ownerIn(comment, before) {
    const head = HEAD.exec(comment);
    return head ? Number(head[1] || 0) : before;
  }

  // A listing with the owner of each line, and of each owner its first line and how many instructions it has.
  function linkedListing(bytes) {
    const listing = listingOf(bytes);
    const { starts } = listing;
    const owners = new Uint32Array(starts.length);
    const index = new Map();
    let owner = NO_OWNER;
    starts.forEach((start, row) => {
      const end = row + 1 < starts.length ? starts[row + 1] - 1 : bytes.length;
      if (bytes[start] === SEMICOLON) owner = ownerIn(decoder.decode(bytes.subarray(start, end)).trimEnd(), owner);
      owners[row] = owner;
      if (owner === NO_OWNER) return;
      if (!index.has(owner)) index.set(owner, { row, count: 0, pads: 0 });
      count(index.get(owner), bytes.subarray(start, end));
    });
    return { ...listing, owners, index: [...index] };
  }

  // counts a line that is an instruction: it is indented, and no note
  function count(found, line) {
    const [SPACE, DOT, S] = [32, 46, 115];
    if (line[0] !== SPACE || line[4] === DOT) return;
    found.count += 1;
    if (line[line.length - 1] === S && line.length > 4 && decoder.decode(line.subarray(-5)) === ' pads') found.pads += 1;
  }

  // a step as it is passed to the page
  const plainStep = ({ what, words, status, milliseconds, text, explained }) => ({
    what, words, status, milliseconds, explained, text: decoder.decode(text.subarray(0, MOST_SAID)) });

  function resultOf(job) {
    const work = new Work(job);
    let fault = null;
    let found = {};
    try {
      found = work[job.verb]();
    } catch (step) {
      if (step instanceof Error) throw step;
      fault = plainStep(step);
    }
    return { ...found, fault, done: work.done.map(plainStep) };
  }

  // what is passed to the page without a copy
  function buffersOf({ traces = [], listing, outputs = [] }) {
    const arrays = traces.flatMap(({ text, stamps, kinds, starts, byKind }) => [text, stamps, kinds, starts,
      ...byKind.values()]);
    const texts = [listing && listing.bytes, listing && listing.owners, ...outputs.map((it) => it.bytes)];
    return [...new Set([...arrays, ...texts].filter(Boolean).map((it) => it.buffer))];
  }

  return async function take(message) {
    try {
      if (message.kind === 'load') {
        await engine.load(message.bytes);
        tell({ kind: 'loaded' });
      } else {
        const result = resultOf(message.job);
        tell({ kind: 'done', result }, buffersOf(result));
      }
    } catch (error) {
      tell({ kind: 'stopped', name: error.name, message: error.message });
    }
  };
}

if (typeof module === 'object') module.exports = ghostWorker;
