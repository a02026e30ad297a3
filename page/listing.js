'use strict';
// A long text of which only the lines in view are part of the document: its bytes, and where its lines begin. In a
// listing of a source each line has an owner, the line of the source that it was made of. Owner 0 is the start and the
// end of the program, and the lines before the first instruction have none.

const Listing = (() => {
  const LINE = 18;                    // the height of a line, in pixels
  const MOST = 4_000_000;             // the greatest height of the scrolled area, which browsers limit
  const AROUND = 20;                  // lines that are drawn above and below those in view
  const NO_OWNER = 0xffffffff;
  const decoder = new TextDecoder();

  // how far a key goes, in lines; `page` is how many are in view
  const MOVES = {
    ArrowUp: () => -1,
    ArrowDown: () => 1,
    PageUp: (page) => -page,
    PageDown: (page) => page,
    Home: () => -Infinity,
    End: () => Infinity,
  };

  class View {
    constructor(parent, { bytes, starts, owners }, id, label) {
      Object.assign(this, { bytes, starts, owners, lit: NO_OWNER, here: null });
      this.frame = Form.made(parent, 'div', { id, class: 'listing', tabindex: 0, role: 'region', 'aria-label': label });
      this.space = Form.made(this.frame, 'div', { class: 'space' });
      this.lines = Form.made(this.space, 'pre');
      this.high = Math.min(MOST, starts.length * LINE);
      this.space.style.height = `${this.high + LINE}px`;
      this.frame.onscroll = () => this.draw();
      this.draw();
    }

    // how many lines are in view
    count() {
      return Math.floor((this.frame.clientHeight || 420) / LINE);
    }

    // the pixels that can be scrolled, and the lines that then leave the view
    most() {
      return Math.max(0, this.high + LINE - (this.frame.clientHeight || 420));
    }

    hidden() {
      return Math.max(0, this.starts.length - this.count());
    }

    // the first line in view: it goes by the share that is scrolled, since the area may be less high than the lines
    top() {
      const most = this.most();
      const share = most > 0 ? Math.min(1, this.frame.scrollTop / most) : 0;
      return Math.round(share * this.hidden());
    }

    wordsAt(row) {
      const end = row + 1 < this.starts.length ? this.starts[row + 1] : this.bytes.length;
      return decoder.decode(this.bytes.subarray(this.starts[row], end)).replace(/\n$/, '');
    }

    ownerAt(row) {
      return this.owners ? this.owners[row] : NO_OWNER;
    }

    draw() {
      const top = this.top();
      const from = Math.max(0, top - AROUND);
      const to = Math.min(this.starts.length, top + this.count() + AROUND);
      const drawn = [];
      for (let row = from; row < to; row += 1) drawn.push(this.lineOf(row));
      this.lines.replaceChildren(...drawn);
      this.lines.style.top = `${this.frame.scrollTop - (top - from) * LINE}px`;
    }

    // a line as it is drawn
    lineOf(row) {
      const line = document.createElement('span');
      const words = this.wordsAt(row);
      const owner = this.ownerAt(row);
      line.textContent = words || ' ';
      line.dataset.row = row;
      if (this.owners && words[0] === ';') line.className = 'of-source';
      else if (owner !== NO_OWNER && words.endsWith(' pads')) line.className = 'pads';
      this.mark(line, row);
      return line;
    }

    // marks a line that is drawn, if it is lit or the one at which the keys are
    mark(line, row) {
      const owner = this.ownerAt(row);
      line.classList.toggle('lit', owner !== NO_OWNER && owner === this.lit);
      line.classList.toggle('here', row === this.here);
    }

    // Lights up the lines of an owner. The lines aren't drawn anew, since one that is under a pointer has to stay.
    light(owner) {
      this.lit = owner;
      for (const line of this.lines.children) this.mark(line, Number(line.dataset.row));
    }

    // scrolls to a line if it isn't in view
    reveal(row) {
      const top = this.top();
      if (row >= top && row < top + this.count() - 1) return;
      const wanted = Math.min(this.hidden(), Math.max(0, row - Math.floor(this.count() / 3)));
      this.frame.scrollTop = this.hidden() ? (wanted / this.hidden()) * this.most() : 0;
      this.draw();
    }

    // the line at which something was pointed; null if it was pointed beside the lines
    rowOf(event) {
      const line = event.target.closest('[data-row]');
      return line ? Number(line.dataset.row) : null;
    }

    // makes a line the one at which the keys are
    goTo(row) {
      this.here = Math.min(this.starts.length - 1, Math.max(0, row));
      this.reveal(this.here);
      this.light(this.lit);
    }

    // goes where a key leads; whether it leads anywhere
    goBy(key) {
      if (!MOVES[key]) return false;
      const from = this.here === null ? this.top() - 1 : this.here;
      this.goTo(from + MOVES[key](this.count()));
      return true;
    }
  }

  return { NO_OWNER, show: (parent, text, id, label) => new View(parent, text, id, label) };
})();
