'use strict';
// The picture of two traces on one axis of cycles. A bar is an access, at the cycle at which it starts. Its colour and
// its height show its memory. Reads are above their run's line, writes below it; an access of an oblivious bank, of
// which the bus doesn't show which it is, is on both sides. If there are more events than pixels, the darker a column
// is, the more events it has.

const Picture = (() => {
  const { HIGH, lookOf, grouped, counted, placeFrom } = Marks;
  const LEFT = 12;
  const STRIP = 34;                   // the height of the strip with the leaves of paths
  const REACH = 8;                    // how far from the pointer an event may be, in pixels
  const LEAST_CYCLES = 20;            // that are shown
  const SVG = 'http://www.w3.org/2000/svg';
  const KEYS = 'Left and right go from event to event, + and - zoom, Home and End go to the ends, 0 shows all, d the '
    + 'first difference. Ctrl and the wheel zoom, dragging pans, a tap selects.';

  const { made } = Form;

  function drawn(parent, name, attributes, text = null) {
    const node = document.createElementNS(SVG, name);
    for (const [key, value] of Object.entries(attributes)) node.setAttribute(key, value);
    if (text !== null) node.textContent = text;
    parent.append(node);
    return node;
  }

  class View {
    // `told` is called with the event that is selected, or null
    constructor(parent, result, told) {
      Object.assign(this, { result, told, from: 0, cursor: null });
      this.last = Math.max(1, ...result.costs.map((cost) => cost.end));
      this.to = this.last;
      this.hasPaths = result.traces.some((trace) => trace.paths.leaves.length > 0);
      this.build(parent);
      new PictureInput(this);
      this.draw();
      this.select(null);
    }

    // ---- the elements

    build(parent) {
      const bar = made(parent, 'div', { class: 'bar', role: 'group', 'aria-label': 'The picture' });
      this.buttons = {};
      const buttons = [['in', 'zoom-in', 'Zoom in'], ['out', 'zoom-out', 'Zoom out'], ['all', 'zoom-all', 'All']];
      if (this.result.differ !== null) buttons.push(['differ', 'to-differ', 'First difference']);
      for (const [name, id, words] of buttons) this.buttons[name] = made(bar, 'button', { type: 'button', id }, words);
      this.frame = made(parent, 'div', {
        id: 'picture', class: 'picture', tabindex: 0, role: 'slider', 'aria-label': 'Both traces, by cycles',
        'aria-valuemin': 0, 'aria-valuemax': this.last, 'aria-describedby': 'keys',
      });
      this.under = made(parent, 'div', { class: 'under', id: 'under' });
      this.buildLegend(made(parent, 'div', { class: 'legend' }));
      made(parent, 'p', { id: 'keys', class: 'legend' }, KEYS);
    }

    buildLegend(legend) {
      for (const [colour, high, words] of Marks.LEGEND) {
        const item = made(legend, 'span');
        made(item, 'span', { class: `key ${colour}` }).style.height = `${high}px`;
        item.append(words);
      }
      made(legend, 'span', {}, 'reads above the line, writes below');
      if (this.hasPaths) made(legend, 'span', {}, 'dots: the leaf of each access’s path');
    }

    // ---- drawing

    heights() {
      const strip = this.hasPaths ? STRIP + 8 : 0;
      const first = 42 + HIGH;
      return { lines: [first, first + 2 * HIGH + 20 + strip], strip, bottom: first + 3 * HIGH + 28 + 2 * strip };
    }

    draw() {
      this.drawnWidth = this.frame.clientWidth;
      const width = Math.max(240, this.drawnWidth || 900);
      this.axis = Marks.axisOf(this.from, this.to, LEFT, width - LEFT);
      const { lines, strip, bottom } = this.heights();
      this.lines = lines;
      const svg = document.createElementNS(SVG, 'svg');
      const look = { viewBox: `0 0 ${width} ${bottom + 24}`, height: bottom + 24, role: 'img',
        'aria-label': 'The events of both traces' };
      for (const [key, value] of Object.entries(look)) svg.setAttribute(key, value);
      this.result.traces.forEach((trace, run) => {
        this.drawRun(svg, trace, run, lines[run]);
        if (strip) this.drawPaths(svg, trace, run, lines[run] + HIGH + 6);
      });
      this.drawAxis(svg, bottom);
      this.drawDifference(svg, bottom);
      this.cursorLine = drawn(svg, 'line', { class: 'cursor', y1: 20, y2: bottom, x1: -9, x2: -9 });
      this.frame.replaceChildren(svg);
      this.svg = svg;
      this.placeCursor();
    }

    drawRun(svg, trace, run, y) {
      const { axis } = this;
      drawn(svg, 'text', { x: LEFT, y: y - HIGH - 6 }, `run ${run + 1}: ${counted(trace.kinds.length, 'event')}`);
      drawn(svg, 'line', { class: 'rule', x1: LEFT, x2: axis.right, y1: y, y2: y });
      for (const [kind, stamps] of trace.byKind) {
        for (const { level, opacity, data } of Marks.pathsOf(kind, stamps, axis, y)) {
          drawn(svg, 'path', { class: lookOf(kind).colour, stroke: 'none', opacity, d: data, 'data-run': run + 1,
            'data-kind': lookOf(kind).name, 'data-level': level, 'data-bars': data.split('Z').length - 1 });
        }
      }
    }

    // the leaves of the paths as dots; those on one pixel are drawn once
    drawPaths(svg, trace, run, y) {
      const { stamps, leaves } = trace.paths;
      const most = leaves.reduce((high, leaf) => Math.max(high, leaf), 1);
      const spots = new Set();
      const end = placeFrom(stamps, this.to + 1);
      for (let i = placeFrom(stamps, this.from); i < end; i += 1) {
        spots.add(`M${Math.round(this.axis.x(stamps[i]))} ${Math.round(y + (leaves[i] / most) * STRIP)}h2v2h-2z`);
      }
      drawn(svg, 'path', { class: 'oblivious', stroke: 'none', d: [...spots].join(''), 'data-run': run + 1,
        'data-paths': leaves.length });
    }

    drawAxis(svg, y) {
      const { right, x } = this.axis;
      drawn(svg, 'line', { class: 'rule', x1: LEFT, x2: right, y1: y, y2: y });
      const step = Marks.stepOf(this.to - this.from, Math.max(2, (right - LEFT) / 120));
      for (let cycle = Math.ceil(this.from / step) * step; cycle <= this.to; cycle += step) {
        const isLast = x(cycle) > right - 40;
        drawn(svg, 'line', { class: 'rule', x1: x(cycle), x2: x(cycle), y1: y, y2: y + 5 });
        const look = { class: isLast ? 'quiet end' : 'quiet', x: isLast ? right : x(cycle), y: y + 18 };
        drawn(svg, 'text', look, grouped(cycle));
      }
    }

    drawDifference(svg, bottom) {
      const cycle = Marks.differCycle(this.result);
      if (cycle === null || cycle < this.from || cycle > this.to) return;
      const x = this.axis.x(cycle);
      drawn(svg, 'line', { class: 'differ', x1: x, x2: x, y1: 6, y2: bottom });
      const isRight = x > this.axis.right / 2;
      const look = { class: isRight ? 'end' : '', x: isRight ? x - 6 : x + 6, y: 16 };
      drawn(svg, 'text', look, `first difference: cycle ${grouped(cycle)}`);
    }

    // ---- moving

    show(from, to) {
      const span = Math.min(this.last, Math.max(LEAST_CYCLES, to - from));
      this.from = Math.min(Math.max(0, from), this.last - span);
      this.to = this.from + span;
      if (this.waits) return;
      this.waits = true;
      requestAnimationFrame(() => {
        this.waits = false;
        this.draw();
      });
    }

    zoom(factor, about) {
      const span = Math.min(this.last, Math.max(LEAST_CYCLES, (this.to - this.from) * factor));
      const share = (about - this.from) / (this.to - this.from);
      this.show(about - share * span, about + (1 - share) * span);
    }

    pan(pixels) {
      const cycles = (pixels / (this.axis.right - LEFT)) * (this.to - this.from);
      this.show(this.from + cycles, this.to + cycles);
    }

    middle() {
      const inside = this.cursor && this.cursor.cycle >= this.from && this.cursor.cycle <= this.to;
      return inside ? this.cursor.cycle : (this.from + this.to) / 2;
    }

    // ---- what is under the pointer or the cursor

    // the event of a run that is nearest to a cycle, with its distance in pixels
    nearest(run, cycle) {
      const { stamps } = this.result.traces[run];
      const place = placeFrom(stamps, cycle);
      const near = [place - 1, place].filter((i) => i >= 0 && i < stamps.length);
      if (!near.length) return null;
      const best = near.reduce((a, b) => (Math.abs(stamps[b] - cycle) < Math.abs(stamps[a] - cycle) ? b : a));
      return { run, place: best, cycle: stamps[best], far: Math.abs(this.axis.x(stamps[best]) - this.axis.x(cycle)) };
    }

    // shows an event, and the one of the other run at the same cycle
    select(event) {
      this.cursor = event;
      const other = event && this.nearest(1 - event.run, event.cycle);
      const both = event ? [event, ...(other && other.cycle === event.cycle ? [other] : [])] : [];
      const sorted = both.sort((a, b) => a.run - b.run);
      this.say(sorted.map(({ run, place }) => Difference.eventWords(this.result, run, place)), event);
      this.told(event);
    }

    // says how many events of each kind both runs have in some cycles
    selectRange(from, to) {
      this.cursor = { run: 0, cycle: from };
      this.say([0, 1].map((run) => Difference.countWords(this.result.traces[run], run, from, to)), this.cursor);
      this.told(null);
    }

    say(lines, event) {
      this.under.replaceChildren();
      for (const line of lines) made(this.under, 'div', {}, line);
      this.frame.setAttribute('aria-valuenow', Math.round(event ? event.cycle : this.from));
      this.frame.setAttribute('aria-valuetext', lines.join('; ') || Difference.summary(this.result));
      this.placeCursor();
    }

    placeCursor() {
      const x = this.cursor ? this.axis.x(this.cursor.cycle) : -9;
      for (const key of ['x1', 'x2']) this.cursorLine.setAttribute(key, x);
    }

    selectAt(place) {
      const cycle = this.axis.cycleAt(place.x);
      const run = Math.abs(place.y - this.lines[0]) <= Math.abs(place.y - this.lines[1]) ? 0 : 1;
      const [from, to] = [Math.floor(cycle), Math.ceil(this.axis.cycleAt(place.x + 2))];
      const { stamps } = this.result.traces[run];
      const found = this.nearest(run, cycle);
      if (placeFrom(stamps, to) - placeFrom(stamps, from) > 1) this.selectRange(from, to - 1);
      else this.select(found && found.far <= REACH ? found : null);
    }

    // goes to the next event of either run, or to the one before
    stepTo(direction) {
      const now = this.cursor ? this.cursor.cycle : direction > 0 ? this.from - 1 : this.to + 1;
      this.goToBest(direction, ({ stamps }) => (
        direction > 0 ? placeFrom(stamps, now + 1) : placeFrom(stamps, now) - 1));
    }

    goToEnd(direction) {
      this.goToBest(direction, ({ stamps }) => (direction > 0 ? 0 : stamps.length - 1));
    }

    // goes to the first of these events of the runs, or to the last if the direction is backwards
    goToBest(direction, placeIn) {
      const found = this.result.traces.flatMap((trace, run) => {
        const place = placeIn(trace);
        return place >= 0 && place < trace.stamps.length ? [{ run, place, cycle: trace.stamps[place] }] : [];
      });
      if (found.length) this.goTo(found.reduce((a, b) => ((b.cycle - a.cycle) * direction < 0 ? b : a)));
    }

    goTo(event) {
      const span = this.to - this.from;
      if (event.cycle < this.from || event.cycle > this.to) this.show(event.cycle - span / 2, event.cycle + span / 2);
      this.select(event);
    }

    goToDifference() {
      const cycle = Marks.differCycle(this.result);
      if (cycle === null) return;
      const span = Math.min(this.to - this.from, Math.max(LEAST_CYCLES, this.last / 20));
      this.show(cycle - span / 2, cycle + span / 2);
      const { traces, differ } = this.result;
      const run = traces.findIndex((trace) => differ < trace.stamps.length && trace.stamps[differ] === cycle);
      if (run >= 0) this.select({ run, place: differ, cycle });
    }
  }

  return { show: (parent, result, told) => new View(parent, result, told), drawn };
})();
