'use strict';
// What each line of a source cost in both runs, read from the tables that the tool `profile` prints.

const Profile = (() => {
  const { grouped, counted } = Marks;
  const ROW = /^ *(\d+) +(\d+) +(\d+) +(\d+) {2}/;

  // the costs of the lines in a table, by their numbers
  function rowsOf(table) {
    const found = table.split('\n').map((line) => ROW.exec(line)).filter(Boolean);
    return new Map(found.map((row) => {
      const [cycles, accesses, padding, number] = row.slice(1).map(Number);
      return [number, { cycles, accesses, padding }];
    }));
  }

  // the words beside a line: cycles, and in brackets those that pad; of both runs where they differ
  function wordsOf([one, two]) {
    const both = (a, b) => (a === b ? grouped(a) : `${grouped(a)} / ${grouped(b)}`);
    const pads = one.padding || two.padding ? ` (${both(one.padding, two.padding)})` : '';
    return `${both(one.cycles, two.cycles)}${pads}`;
  }

  function sentenceOf({ cycles, accesses, padding }, run) {
    const pads = padding ? `, ${grouped(padding)} of them padding` : '';
    return `Run ${run + 1}: ${counted(cycles, 'cycle')}${pads}; ${grouped(accesses)} ${accesses === 1 ? 'access' : 'accesses'}`;
  }

  // for each line its number, the words beside it, and those when it is pointed at
  function marksOf(tables) {
    const [one, two] = tables.map(rowsOf);
    return [...one].map(([number, row]) => {
      const rows = [row, two.get(number) || row];
      return { number, words: wordsOf(rows), title: rows.map(sentenceOf).join('\n') };
    });
  }

  return { marksOf };
})();
