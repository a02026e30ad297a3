'use strict';
// The table of what both runs cost, by kind of event.

const Costs = (() => {
  const { grouped, lookOf } = Marks;
  const { made } = Form;
  const COLUMNS = ['Memory', 'Events of run 1', 'Cycles', 'Events of run 2', 'Cycles'];

  function row(body, words, numbers) {
    const line = made(body, 'tr');
    made(line, 'th', { scope: 'row' }, words);
    for (const number of numbers) made(line, 'td', {}, typeof number === 'number' ? grouped(number) : number);
  }

  function show(parent, costs) {
    const table = made(made(parent, 'div', { class: 'wide' }), 'table', { id: 'costs' });
    made(table, 'caption', {}, 'What each run cost. An access takes the latency of its bank.');
    const head = made(made(table, 'thead'), 'tr');
    for (const words of COLUMNS) made(head, 'th', { scope: 'col' }, words);
    const body = made(table, 'tbody');
    const kinds = [...new Set(costs.flatMap((cost) => cost.rows.map((it) => it.kind)))];
    kinds.sort((a, b) => (a === Marks.HALT) - (b === Marks.HALT) || a - b);
    for (const kind of kinds) {
      row(body, lookOf(kind).name, costs.flatMap((cost) => {
        const { events, cycles } = cost.rows.find((it) => it.kind === kind) || { events: 0, cycles: 0 };
        return [events, kind === Marks.HALT ? '' : cycles];
      }));
    }
    row(body, 'computing and waiting', costs.flatMap((cost) => ['', cost.computing]));
    row(made(table, 'tfoot'), 'in all', costs.flatMap((cost) => [
      cost.rows.reduce((sum, it) => sum + it.events, 0), `${grouped(cost.end)}${cost.halted ? '' : ', not halted'}`]));
  }

  return { show };
})();
