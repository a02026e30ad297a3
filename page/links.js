'use strict';
// The listing and the source that it was made of: what belongs together lights up in both. Pointing lights a line for as
// long as it is pointed at; a click, a tap, the cursor and the keys choose one.

const Links = (() => {
  const { made } = Form;
  const { counted, grouped } = Marks;
  const { NO_OWNER } = Listing;
  const START_AND_END = 0;

  const LEGEND = 'Point at a line of the source or of the assembly, tap it, or use the arrow keys: the line and its '
    + 'instructions are highlighted in both. In the assembly, Enter goes to the line of the source. Each instruction '
    + 'is followed by its place and its cycles; a branch has two numbers, for not taken and taken.';
  const PADS = 'only makes both arms of a branch on a secret show the same events';

  let view = null;                    // the listing that is linked
  let index = null;                   // of each owner its first line in the listing, and its instructions
  let said = null;                    // where it is said what is lit
  let chosen = NO_OWNER;
  let pointed = NO_OWNER;

  function legend(parent) {
    made(parent, 'p', { class: 'quiet' }, LEGEND);
    const line = made(parent, 'p', { class: 'legend', id: 'listing-legend' });
    for (const [look, words] of [['lit', 'belongs to the chosen line'], ['pads', PADS]]) {
      const item = made(line, 'span');
      made(item, 'code', { class: look }, look === 'lit' ? 'li r0 1' : 'nop');
      item.append(` ${words}`);
    }
  }

  // what an owner is, in words
  function wordsOf(owner) {
    if (owner === NO_OWNER) return '';
    const { count, pads } = index.get(owner) || { count: 0, pads: 0 };
    const padding = pads ? `, ${grouped(pads)} of them padding` : '';
    const size = count ? `${counted(count, 'instruction')}${padding}` : 'no instructions';
    if (owner === START_AND_END) return `Start and end: ${size}.`;
    return `Line ${grouped(owner)}: ${size}. ${Editor.lineAt(owner).trim().slice(0, 80)}`;
  }

  function light() {
    const owner = pointed === NO_OWNER ? chosen : pointed;
    view.light(owner);
    Editor.light(owner === NO_OWNER ? null : owner);
    said.textContent = wordsOf(owner);
  }

  // something is pointed at, or nothing any more
  function point(owner) {
    if (!view || owner === pointed) return;
    pointed = owner;
    light();
  }

  function choose(owner) {
    pointed = NO_OWNER;
    chosen = owner;
    light();
  }

  // the cursor went to a line of the source
  function cursorAt(line) {
    if (!view) return;
    choose(line);
    const found = index.get(line);
    if (found) view.reveal(found.row);
  }

  // a line of the listing was chosen
  function rowChosen(row) {
    view.goTo(row);
    choose(view.ownerAt(row));
    if (chosen !== NO_OWNER && chosen !== START_AND_END) Editor.reveal(chosen);
  }

  function keyIn(event) {
    if (event.ctrlKey || event.altKey || event.metaKey) return;
    if (event.key === 'Enter' && chosen !== NO_OWNER && chosen !== START_AND_END) {
      event.preventDefault();
      Editor.goTo({ line: chosen, column: null });
    } else if (view.goBy(event.key)) {
      event.preventDefault();
      rowChosen(view.here);
    }
  }

  // shows a listing with its legend, and links it to the source in the editor
  function show(parent, listing, id, label) {
    legend(parent);
    said = made(parent, 'p', { id: 'linked', role: 'status' });
    view = Listing.show(parent, listing, id, label);
    index = new Map(listing.index);
    const { frame } = view;
    frame.setAttribute('aria-describedby', 'linked');
    frame.onpointermove = (event) => {
      const row = event.pointerType === 'touch' ? null : view && view.rowOf(event);
      if (row !== null) point(view.ownerAt(row));
    };
    frame.onpointerleave = () => point(NO_OWNER);
    frame.onclick = (event) => {
      const row = view && view.rowOf(event);
      if (row !== null) rowChosen(row);
    };
    frame.onkeydown = (event) => { if (view) keyIn(event); };
  }

  // ends the link, since the source was changed or another result is shown
  function end() {
    if (!view) return;
    view.light(NO_OWNER);
    Editor.light(null);
    said.textContent = '';
    [view, chosen, pointed] = [null, NO_OWNER, NO_OWNER];
  }

  return { show, end, point: (line) => point(line === null ? NO_OWNER : line), cursorAt };
})();
