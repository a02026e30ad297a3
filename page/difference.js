'use strict';
// Words for the events of two traces, and for how the traces differ: which variable and which word, in both runs.

const Difference = (() => {
  const { grouped, counted, lookOf, placeFrom } = Marks;
  const MOST_ROWS = 50;               // of words that differ
  const MOST_VALUES = 8;              // of an array, in a sentence

  // an event of a trace, with its block and the words that the bus shows of it
  function eventOf(trace, place) {
    if (place >= trace.kinds.length) return null;
    const [stamp, , , block, ...words] = Engine.lineOf(trace, place).split(' ');
    const kind = trace.kinds[place];
    const hasBlock = kind < Marks.HALT;
    return { cycle: Number(stamp), kind, bank: kind === Marks.HALT ? null : Marks.bankOf(kind), place,
      block: hasBlock ? Number(block) : null, words };
  }

  const nameOf = ({ symbol, index }) => (symbol.isArray ? `${symbol.name}[${index}]` : symbol.name);

  // the part of a variable that a block has, as `n` or `a[8..15]`
  function partIn(layout, block, symbol) {
    if (!symbol.isArray) return symbol.name;
    const from = (block - symbol.block) * layout.blockWords - symbol.word;
    const to = Math.min(symbol.length, from + layout.blockWords) - 1;
    return `${symbol.name}[${Math.max(0, from)}..${to}]`;
  }

  // what the bus shows of the words of a block of plain memory, by variables
  function valuesOf(layout, { bank, block, words }) {
    return Objects.variablesIn(layout, bank, block).map((symbol) => {
      const start = symbol.word + (symbol.block - block) * layout.blockWords;
      const values = words.slice(Math.max(0, start), start + symbol.length);
      const more = values.length > MOST_VALUES ? `, and ${grouped(values.length - MOST_VALUES)} more` : '';
      return `${partIn(layout, block, symbol)} = ${values.slice(0, MOST_VALUES).join(', ')}${more}`;
    });
  }

  // an event in words: its memory, its block, and the variables there
  function placeWords(layout, event) {
    const name = lookOf(event.kind).name;
    if (event.kind === Marks.HALT) return name;
    if (event.block === null) {
      const held = layout.symbols.filter((it) => it.bank === event.bank).map((it) => it.name);
      return held.length ? `${name} (${held.join(', ')})` : name;
    }
    const isPlain = event.bank === 0;
    const held = isPlain ? valuesOf(layout, event)
      : Objects.variablesIn(layout, event.bank, event.block).map((it) => partIn(layout, event.block, it));
    return `${name}: block ${grouped(event.block)}${held.length ? ` (${held.join(isPlain ? '; ' : ', ')})` : ''}`;
  }

  function eventWords({ traces, layout }, run, place) {
    const trace = traces[run];
    const event = eventOf(trace, place);
    const path = placeFrom(trace.paths.stamps, event.cycle);
    const leaf = trace.paths.stamps[path] === event.cycle ? `, path to leaf ${trace.paths.leaves[path]}` : '';
    return `run ${run + 1}, event ${grouped(place + 1)}, cycle ${grouped(event.cycle)}: `
      + `${placeWords(layout, event)}${leaf}`;
  }

  // how many events of each kind a run has from a cycle to another
  function countWords({ byKind }, run, from, to) {
    const counts = Array.from(byKind, ([kind, stamps]) => (
      [kind, placeFrom(stamps, to + 1) - placeFrom(stamps, from)])).filter(([, count]) => count);
    const words = counts.map(([kind, count]) => `${grouped(count)} × ${lookOf(kind).name}`);
    return `run ${run + 1}, cycles ${grouped(from)} to ${grouped(to)}: ${words.join('; ') || 'no event'}`;
  }

  // ---- the verdict on two traces

  const VERDICTS = { equal: 'equal', soFar: 'so far', differ: 'differ' };

  function verdictOf({ differ, costs }) {
    if (differ !== null) return VERDICTS.differ;
    return costs.every((cost) => cost.halted) ? VERDICTS.equal : VERDICTS.soFar;
  }

  function summary(result) {
    const { traces, costs, differ } = result;
    const events = counted(traces[0].kinds.length, 'event');
    switch (verdictOf(result)) {
      case VERDICTS.equal:
        return `Both traces are equal: ${events}, and both runs halt at cycle ${grouped(costs[0].end)}.`;
      case VERDICTS.soFar:
        return `Both traces are equal so far: ${events} before cycle ${grouped(costs[0].end)}. Neither run has halted.`;
      default:
        return `The traces first differ at cycle ${grouped(Marks.differCycle(result))}, in event `
          + `${grouped(differ + 1)}.`;
    }
  }

  // why two traces of an accepted program differ, by the public inputs that don't agree
  function causeWords(disagreements) {
    if (!disagreements.length) {
      return 'The public inputs agree, so traces of an accepted program can’t differ: this page has a bug.';
    }
    const words = disagreements.map(({ variable, index, one, two }) => (
      `${nameOf({ symbol: variable, index })} is ${one} in run 1 and ${two} in run 2`));
    return `An accepted program shows only public data, and the public inputs differ: ${words.join('; ')}.`;
  }

  function meaning(result, disagreements) {
    switch (verdictOf(result)) {
      case VERDICTS.equal: return 'No one who watches the bus can tell these runs apart.';
      case VERDICTS.soFar: return 'Nothing is said about later cycles. To compare further, allow more under Options.';
      default: return causeWords(disagreements);
    }
  }

  // ---- the first difference, in full

  // the words that differ in two events that show words of one block
  function rowsOf(layout, one, two) {
    return one.words.flatMap((word, i) => {
      if (word === two.words[i]) return [];
      const found = Objects.variableAt(layout, one.bank, one.block, i);
      return [{ name: found ? nameOf(found) : `word ${i} of block ${one.block}`,
        label: found ? found.symbol.label : 'public', one: word, two: two.words[i] }];
    });
  }

  // in which respect two events differ
  function respect(one, two) {
    if (!one || !two) return `Run ${one ? 2 : 1} has no event here: it ended before.`;
    if (one.kind !== two.kind) return 'The runs access different memory, or access it differently.';
    if (one.cycle !== two.cycle) return 'The runs access the same memory at different cycles.';
    if (one.block !== two.block) return 'The runs access different blocks.';
    return 'The runs access the same block at the same cycle, and its words differ.';
  }

  // the first difference of two traces, or null: in which respect, both events in words, the words that differ
  function first({ traces, layout, differ }) {
    if (differ === null) return null;
    const [one, two] = traces.map((trace) => eventOf(trace, differ));
    const sameBlock = one && two && one.kind === two.kind && one.block === two.block && one.block !== null;
    const rows = sameBlock ? rowsOf(layout, one, two) : [];
    return {
      respect: respect(one, two),
      events: [one, two].map((it) => (it ? `cycle ${grouped(it.cycle)}: ${placeWords(layout, it)}` : 'no event')),
      rows: rows.slice(0, MOST_ROWS),
      more: Math.max(0, rows.length - MOST_ROWS),
    };
  }

  const { made } = Form;

  // shows the first difference: both events side by side, and the words that differ
  function show(parent, result) {
    const found = first(result);
    if (!found) return;
    made(parent, 'h2', {}, 'The first difference');
    made(parent, 'p', {}, found.respect);
    const pair = made(parent, 'div', { class: 'pair', id: 'first-difference' });
    found.events.forEach((words, run) => {
      const side = made(pair, 'div', { class: 'card' });
      made(side, 'strong', {}, `Run ${run + 1}`);
      made(side, 'p', {}, words);
    });
    if (!found.rows.length) return;
    const table = made(made(parent, 'div', { class: 'wide' }), 'table', { id: 'words-that-differ' });
    const head = made(made(table, 'thead'), 'tr');
    for (const words of ['Variable', 'Label', 'Run 1', 'Run 2']) made(head, 'th', { scope: 'col' }, words);
    const body = made(table, 'tbody');
    for (const { name, label, one, two } of found.rows) {
      const row = made(body, 'tr', { class: label });
      made(row, 'th', { scope: 'row' }, name);
      for (const words of [label, one, two]) made(row, 'td', {}, words);
    }
    if (found.more) made(parent, 'p', {}, `${counted(found.more, 'more word')} of this block differ.`);
  }

  return { VERDICTS, eventWords, countWords, verdictOf, summary, meaning, show, partIn };
})();
