'use strict';
// How traces are drawn, without a document: the marks of each kind of event, where they are on the axis of cycles, and
// the cycles that each kind costs. The page and bench/picture share it. The colours are in style.css, by these names.
// Like the engine this is a function, since the worker is made of its text; node takes it as a module.

function ghostMarks() {
  const HIGH = 44;                    // the highest bar, in pixels, above its line or below it
  const BAR = 3;                      // the least width of the bar of one event
  const COLUMN = 2;                   // the width of a column, if events are drawn by density
  const LEVELS = 4;                   // of density
  const HALT = 4;
  const FIRST_OBLIVIOUS = 10;         // the kind of the events of oblivious bank 0; bank b has 10 + b

  const FIXED = [
    { colour: 'plain', above: HIGH, below: 0, name: 'plain memory, read' },
    { colour: 'plain', above: 0, below: HIGH, name: 'plain memory, written' },
    { colour: 'encrypted', above: 32, below: 0, name: 'encrypted memory, read' },
    { colour: 'encrypted', above: 0, below: 32, name: 'encrypted memory, written' },
    { colour: 'halt', above: HIGH, below: HIGH, name: 'halt' },
  ];
  const LEGEND = [['plain', 16, 'plain memory'], ['encrypted', 12, 'encrypted memory'],
    ['oblivious', 8, 'oblivious banks'], ['halt', 16, 'halt']];

  function lookOf(kind) {
    if (kind < FIRST_OBLIVIOUS) return FIXED[kind];
    const bank = kind - FIRST_OBLIVIOUS;
    const high = 24 - 2 * bank;
    return { colour: 'oblivious', above: high, below: high, name: `oblivious bank ${bank}, accessed` };
  }

  const bankOf = (kind) => (kind < HALT ? kind >> 1 : kind - FIRST_OBLIVIOUS);
  const grouped = (number) => Math.round(number).toLocaleString('en-US');
  const counted = (number, word) => `${grouped(number)} ${word}${number === 1 ? '' : 's'}`;

  // the first place whose stamp isn't below a cycle
  function placeFrom(stamps, cycle) {
    let low = 0;
    let high = stamps.length;
    while (low < high) {
      const middle = (low + high) >> 1;
      if (stamps[middle] < cycle) low = middle + 1;
      else high = middle;
    }
    return low;
  }

  // the stamps of each kind of event of a trace, kinds rising
  function stampsByKind({ kinds, stamps }) {
    const counts = new Map();
    for (const kind of kinds) counts.set(kind, (counts.get(kind) || 0) + 1);
    const sorted = [...counts].sort(([a], [b]) => a - b);
    const found = new Map(sorted.map(([kind, count]) => [kind, new Float64Array(count)]));
    const used = new Map();
    kinds.forEach((kind, i) => {
      const place = used.get(kind) || 0;
      found.get(kind)[place] = stamps[i];
      used.set(kind, place + 1);
    });
    return found;
  }

  // The bars of the stamps on an axis, if they are few: bars that meet are one.
  function singleBars(stamps, axis) {
    const bars = [];
    const end = placeFrom(stamps, axis.to + 1);
    for (let i = placeFrom(stamps, axis.from); i < end; i += 1) {
      const x = axis.x(stamps[i]);
      const last = bars[bars.length - 1];
      if (last && x <= last.to) last.to = x + BAR;
      else bars.push({ from: x, to: x + BAR, level: LEVELS });
    }
    return bars;
  }

  // The bars of the stamps on an axis by density: a column's level goes by the logarithm of its count.
  function denseBars(stamps, axis) {
    const counts = [];
    for (let x = axis.left; x < axis.right; x += COLUMN) {
      counts.push(placeFrom(stamps, axis.cycleAt(x + COLUMN)) - placeFrom(stamps, axis.cycleAt(x)));
    }
    const most = Math.log(counts.reduce((high, count) => Math.max(high, count), 1));
    const bars = [];
    counts.forEach((count, i) => {
      if (!count) return;
      const level = most ? Math.ceil((Math.log(count) / most) * (LEVELS - 1)) + 1 : LEVELS;
      const from = axis.left + i * COLUMN;
      const last = bars[bars.length - 1];
      if (last && last.to === from && last.level === level) last.to = from + COLUMN;
      else bars.push({ from, to: from + COLUMN, level });
    });
    return bars;
  }

  // An axis has its first and last cycle (from, to), its pixels (left, right), and both ways between them.
  function axisOf(from, to, left, right) {
    const share = (right - left) / (to - from);
    const x = (cycle) => left + (cycle - from) * share;
    return { from, to, left, right, x, cycleAt: (place) => from + (place - left) / share };
  }

  function isDense(stamps, axis) {
    const shown = placeFrom(stamps, axis.to + 1) - placeFrom(stamps, axis.from);
    return shown > (axis.right - axis.left) / COLUMN;
  }

  function barsOf(stamps, axis) {
    return isDense(stamps, axis) ? denseBars(stamps, axis) : singleBars(stamps, axis);
  }

  // the bars of a kind on a run's line, as the data of one path for each level of density
  function pathsOf(kind, stamps, axis, y) {
    const { above, below } = lookOf(kind);
    const levels = new Map();
    for (const { from, to, level } of barsOf(stamps, axis)) {
      const bar = `M${+from.toFixed(1)} ${y - above}H${+Math.min(to, axis.right + BAR).toFixed(1)}V${y + below}`
        + `H${+from.toFixed(1)}Z`;
      levels.set(level, (levels.get(level) || '') + bar);
    }
    return [...levels].map(([level, data]) => ({ level, opacity: level / LEVELS, data }));
  }

  // a step of 1, 2 or 5 times a power of ten, at least the share of the cycles that are shown
  function stepOf(span, most) {
    const least = Math.max(1, span / most);
    const power = 10 ** Math.floor(Math.log10(least));
    return [1, 2, 5, 10].map((it) => it * power).find((it) => it >= least);
  }

  // the cycle at which two traces first differ, or null if they don't
  function differCycle({ differ, traces, costs }) {
    if (differ === null) return null;
    const stamps = traces.filter((trace) => differ < trace.stamps.length).map((trace) => trace.stamps[differ]);
    return stamps.length ? Math.min(...stamps) : Math.min(...costs.map((cost) => cost.end));
  }

  // What each kind of event cost in a run of at most so many cycles. If the run was cut off within an access, the
  // access is counted to the end only.
  function costOf(trace, banks, cycles) {
    const last = trace.kinds.length - 1;
    const halted = last >= 0 && trace.kinds[last] === HALT;
    const end = halted ? trace.stamps[last] : cycles;
    const rows = new Map();
    trace.kinds.forEach((kind, i) => {
      if (!rows.has(kind)) rows.set(kind, { kind, events: 0, cycles: 0 });
      const row = rows.get(kind);
      const latency = kind === HALT ? 0 : banks[bankOf(kind)].latency;
      row.events += 1;
      row.cycles += i === last ? Math.min(latency, end - trace.stamps[i]) : latency;
    });
    const sorted = [...rows.values()].sort((a, b) => a.kind - b.kind);
    const taken = sorted.reduce((sum, row) => sum + row.cycles, 0);
    return { rows: sorted, halted, end, computing: end - taken };
  }

  return { HIGH, BAR, HALT, LEGEND, lookOf, bankOf, grouped, counted, placeFrom, stampsByKind, axisOf, isDense, barsOf,
    pathsOf, stepOf, differCycle, costOf };
}

if (typeof module === 'object') module.exports = ghostMarks;
