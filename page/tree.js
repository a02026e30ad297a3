'use strict';
// The trees of the oblivious banks: the path of the access that is selected, lit in the tree of each run.

const Tree = (() => {
  const { made } = Form;
  const { grouped } = Marks;
  const WIDE = 420;
  const STEP = 26;                    // between two levels, in pixels
  const MOST_NODES = 64;              // of a level that is drawn node by node

  // the height of the tree of a bank
  const heightOf = (blocks) => Math.ceil(Math.log2(blocks));

  function nodeAt(level, index) {
    return { x: ((index + 0.5) / 2 ** level) * WIDE, y: 14 + level * STEP };
  }

  function drawLevel(svg, level, lit) {
    const count = 2 ** level;
    const { y } = nodeAt(level, 0);
    if (count > MOST_NODES) {
      Picture.drawn(svg, 'line', { class: 'rule', x1: 4, x2: WIDE - 4, y1: y, y2: y });
    } else {
      for (let index = 0; index < count; index += 1) {
        const { x } = nodeAt(level, index);
        Picture.drawn(svg, 'circle', { class: 'node', cx: x, cy: y, r: 3 });
      }
    }
    const { x } = nodeAt(level, lit);
    Picture.drawn(svg, 'circle', { class: 'oblivious', cx: x, cy: y, r: 6 });
  }

  // a tree with the path to a leaf, from the root above
  function treeOf(height, leaf) {
    const svg = document.createElementNS('http://www.w3.org/2000/svg', 'svg');
    const high = 28 + height * STEP;
    for (const [key, value] of Object.entries({ viewBox: `0 0 ${WIDE} ${high}`, width: WIDE, height: high, role: 'img',
      'aria-label': `the path from the root to leaf ${leaf} of ${2 ** height}`, 'data-leaf': leaf })) {
      svg.setAttribute(key, value);
    }
    const path = Array.from({ length: height + 1 }, (_, level) => leaf >> (height - level));
    for (let level = 1; level <= height; level += 1) {
      const [above, below] = [nodeAt(level - 1, path[level - 1]), nodeAt(level, path[level])];
      Picture.drawn(svg, 'line', { class: 'oblivious way', x1: above.x, y1: above.y, x2: below.x, y2: below.y });
    }
    path.forEach((index, level) => drawLevel(svg, level, index));
    return svg;
  }

  class View {
    constructor(parent, result) {
      this.result = result;
      made(parent, 'h2', {}, 'The paths of oblivious banks');
      made(parent, 'p', {}, 'Each access to an oblivious bank reads and writes one path of its tree, from the root to '
        + 'a leaf. The leaves are random, so two runs show different paths even if they access the same blocks. By a '
        + 'theorem, two runs of an accepted program access the same banks at the same cycles if their public inputs '
        + 'agree, and a rearrangement of the random words of one run gives the leaves of the other. No theorem states '
        + 'that all random words are equally likely.');
      this.pair = made(parent, 'div', { class: 'pair', id: 'trees' });
      const first = this.firstPath();
      if (first) this.select(first);
    }

    firstPath() {
      const run = this.result.traces.findIndex((trace) => trace.paths.leaves.length);
      return run < 0 ? null : { cycle: this.result.traces[run].paths.stamps[0] };
    }

    // lights the paths of the accesses at a cycle
    select(event) {
      if (!event) return;
      const found = this.result.traces.map(({ paths }) => {
        const place = Marks.placeFrom(paths.stamps, event.cycle);
        return paths.stamps[place] === event.cycle ? { leaf: paths.leaves[place], bank: paths.banks[place] } : null;
      });
      if (!found.some(Boolean)) return;
      this.pair.replaceChildren();
      found.forEach((path, run) => this.card(path, run, event.cycle));
    }

    card(path, run, cycle) {
      const card = made(this.pair, 'div', { class: 'card picture' });
      if (!path) {
        made(card, 'p', {}, `Run ${run + 1}, cycle ${grouped(cycle)}: no oblivious bank is accessed.`);
        return;
      }
      const height = heightOf(this.result.layout.banks[path.bank].blocks);
      made(card, 'p', {}, `Run ${run + 1}, cycle ${grouped(cycle)}: oblivious bank ${path.bank}, `
        + `leaf ${path.leaf} of ${grouped(2 ** height)}`);
      if (height) card.append(treeOf(height, path.leaf));
      else made(card, 'p', {}, 'The bank has one block, so its tree has one node. Smaller blocks give it more.');
    }
  }

  return { show: (parent, result) => new View(parent, result) };
})();
