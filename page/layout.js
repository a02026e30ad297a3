'use strict';
// Where the variables of an object are: each bank as a row of blocks, with the reason of each place.

const Layout = (() => {
  const { grouped, counted } = Marks;
  const { made } = Form;
  const MOST_BOXES = 48;              // of a bank
  const COLOURS = ['plain', 'encrypted'];
  const SHOWN = [
    'The bus shows the number of each block that is accessed, and its words.',
    'The bus shows the number of each block that is accessed, but not its words.',
    'The bus shows that the bank is accessed, but neither which block nor its words.',
  ];
  const OBLIVIOUS = 'The compiler places a secret array here if an index of one of its accesses is secret';
  const REASONS = {
    memory: [
      'The compiler places public variables here.',
      'The compiler places a secret variable here if none of its indexes is secret.',
      `${OBLIVIOUS}.`,
    ],
    scratchpad: [
      'The compiler places public variables here, and keeps scalars and arrays that fit in the scratchpad during a run.',
      'The compiler keeps secret scalars and arrays that fit in the scratchpad during a run. It places them here, with '
        + 'the other secret variables without a secret index.',
      `${OBLIVIOUS}, and the array doesn’t fit in the scratchpad.`,
    ],
  };

  // the boxes of a bank: blocks with the same variables are one
  function boxesOf(layout, bank) {
    const boxes = [];
    const edges = new Set([0]);
    for (const { block, word, length } of layout.symbols.filter((it) => it.bank === bank)) {
      edges.add(block).add(block + Math.ceil((word + length) / layout.blockWords));
    }
    const sorted = [...edges, layout.banks[bank].blocks].sort((a, b) => a - b);
    for (let i = 0; i + 1 < sorted.length; i += 1) {
      const [from, to] = [sorted[i], sorted[i + 1]];
      if (from < to) boxes.push({ from, to, held: Objects.variablesIn(layout, bank, from) });
    }
    return boxes;
  }

  function box(row, { from, to, held }) {
    const blocks = to - from === 1 ? `block ${grouped(from)}` : `blocks ${grouped(from)} to ${grouped(to - 1)}`;
    const item = made(row, 'li', { class: held.length ? 'box' : 'box empty' });
    item.style.flexGrow = String(1 + Math.log2(to - from));
    made(item, 'span', { class: 'quiet' }, blocks);
    for (const symbol of held) {
      const words = symbol.isArray ? `${symbol.name}[${symbol.length}]` : symbol.name;
      made(item, 'span', { class: symbol.label }, words);
    }
    if (!held.length) made(item, 'span', { class: 'quiet' }, 'free');
  }

  // An object with the names that the tool `layout` prints, a line for each variable, in the same order. Only the names of
  // variables that calls add are others.
  function withNames(layout, lines) {
    const names = (lines || '').split('\n').map((line) => /^\w+ (\w+)/.exec(line)).filter(Boolean).map((it) => it[1]);
    if (names.length !== layout.symbols.length) return layout;
    return { ...layout, symbols: layout.symbols.map((it, i) => ({ ...it, name: names[i] })) };
  }

  // the reason of each variable's place, by its name, from the lines of the tool `layout`
  function reasonsIn(lines) {
    const found = (lines || '').split('\n').map((line) => /^\w+ (\w+)[^;]*; (.*)$/.exec(line)).filter(Boolean);
    return new Map(found.map(([, name, reason]) => [name, reason]));
  }

  // shows why the variables of a bank are there
  function because(part, layout, bank, found) {
    const held = layout.symbols.filter((it) => it.bank === bank && found.has(it.name));
    if (!held.length) return;
    const list = made(part, 'ul', { class: 'reasons' });
    for (const { name, label } of held.slice(0, MOST_BOXES)) {
      const item = made(list, 'li');
      made(item, 'span', { class: label }, name);
      made(item, 'span', {}, `: ${found.get(name)}`);
    }
    if (held.length > MOST_BOXES) {
      made(list, 'li', { class: 'quiet' }, `and ${counted(held.length - MOST_BOXES, 'more variable')}`);
    }
  }

  // shows the banks, and of a compiled object the reasons of the places; `lines` is what the tool `layout` prints
  function show(parent, layout, job, lines) {
    const found = reasonsIn(lines);
    const reasons = job.form === 'source' ? REASONS[job.options.fast ? 'scratchpad' : 'memory'] : [];
    made(parent, 'h2', {}, 'Where the variables are');
    const banks = made(parent, 'div', { id: 'layout' });
    layout.banks.forEach(({ blocks, latency }, bank) => {
      const part = made(banks, 'section', { class: `bank ${COLOURS[bank] || 'oblivious'}-edge` });
      const name = Objects.memoryOf(bank);
      made(part, 'h3', {}, `${name[0].toUpperCase()}${name.slice(1)}: ${counted(blocks, 'block')} of `
        + `${layout.blockWords} words, ${grouped(latency)} cycles an access`);
      const words = [SHOWN[bank], ...reasons.slice(bank, bank + 1)].join(' ');
      if (bank < SHOWN.length) made(part, 'p', { class: 'quiet' }, words);
      const boxes = boxesOf(layout, bank);
      const row = made(part, 'ol', { class: 'boxes' });
      for (const it of boxes.slice(0, MOST_BOXES)) box(row, it);
      if (boxes.length > MOST_BOXES) {
        made(part, 'p', { class: 'quiet' }, `and ${counted(boxes.length - MOST_BOXES, 'more group')} of blocks`);
      }
      because(part, layout, bank, found);
    });
  }

  return { show, withNames };
})();
