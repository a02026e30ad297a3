'use strict';
// The editor: CodeMirror with one text for each document, each with its own undo history. Lines end with a line feed
// only, so a carriage return stays in the text, as does a byte order mark. Tab moves the focus on.

const Editor = (() => {
  const COSTS = 'line-costs';

  const escaped = (literal) => literal.replace(/[^\w]/g, '\\$&');
  const oneOf = (literals) => new RegExp(`^(?:${literals.map(escaped).join('|')})(?!\\w)`);

  // colours the words of a source or of an assembly text
  function modeOf({ comment, labels, keywords, procedure }) {
    const [comments, labelled, keyed] = [new RegExp(`^${escaped(comment)}.*`), oneOf(labels), oneOf(keywords)];
    const procedures = procedure && new RegExp(`^${procedure}(?=\\s+[A-Za-z_]\\w*\\s*\\()`);
    return () => ({
      token(stream) {
        if (stream.match(comments)) return 'comment';
        const label = stream.match(labelled);
        if (label) return label[0];
        if (stream.match(keyed) || (procedures && stream.match(procedures))) return 'keyword';
        if (!stream.match(/^\w+/)) stream.next();
        return null;
      },
    });
  }
  for (const form of Object.keys(WORDS)) CodeMirror.defineMode(`ghost-${form}`, modeOf(WORDS[form]));

  let code = null;
  let lit = null;                     // the line that is lit
  let marks = [];
  let hasCosts = false;

  // the number of the line at which a pointer is, from 1; null beside the lines
  function lineUnder({ clientX, clientY }) {
    const { line, outside } = code.coordsChar({ left: clientX, top: clientY }, 'window');
    return outside > 0 ? null : line + 1;
  }

  // `edited` is called after an edit; `pointed` with the line at which the pointer is, and `moved` with that of
  // the cursor, once it has changed or was clicked
  function make(parent, { edited, pointed, moved }) {
    code = CodeMirror(parent, {
      mode: 'ghost-source', lineNumbers: true, lineSeparator: '\n', tabSize: 4, indentUnit: 4, undoDepth: 1000,
      screenReaderLabel: 'Program', extraKeys: { Tab: false, 'Shift-Tab': false, 'Ctrl-Enter': false },
    });
    code.on('changes', () => {
      clear();
      edited();
    });
    const lineOfCursor = () => code.getCursor().line + 1;
    let last = null;
    code.on('cursorActivity', () => {
      if (lineOfCursor() !== last) moved(lineOfCursor());
      last = lineOfCursor();
    });
    const frame = code.getScrollerElement();
    frame.onclick = () => moved(lineOfCursor());
    frame.onpointermove = (event) => { if (event.pointerType !== 'touch') pointed(lineUnder(event)); };
    frame.onpointerleave = () => pointed(null);
    const field = code.getInputField();
    field.id = 'source';
    field.setAttribute('aria-describedby', 'verdict');
  }

  // the text of a document of its own, to be shown by `open`
  const textFrom = (words, form) => CodeMirror.Doc(words, `ghost-${form}`, 0, '\n');

  function setForm(form) {
    if (code.getMode().name !== `ghost-${form}`) code.setOption('mode', `ghost-${form}`);
  }

  function open(text, readOnly) {
    clear();
    light(null);
    code.swapDoc(text);
    if (code.getOption('readOnly') !== readOnly) code.setOption('readOnly', readOnly);
  }

  // writes what each line costs into a gutter of its own
  function showCosts(costs) {
    const widest = Math.max(...costs.map(({ words }) => words.length));
    code.getWrapperElement().style.setProperty('--costs', `${widest + 2}ch`);
    code.setOption('gutters', ['CodeMirror-linenumbers', COSTS]);
    for (const { number, words, title } of costs) {
      if (number <= code.lineCount()) {
        const item = document.createElement('span');
        item.className = 'line-cost';
        item.title = title;
        item.textContent = words;
        code.setGutterMarker(number - 1, COSTS, item);
      }
    }
    hasCosts = true;
  }

  function clear() {
    if (hasCosts) {
      code.clearGutter(COSTS);
      code.setOption('gutters', ['CodeMirror-linenumbers']);
      hasCosts = false;
    }
    for (const { mark, line } of marks) {
      mark.clear();
      code.removeLineClass(line, 'gutter', 'fault-line');
    }
    marks = [];
  }

  // the place in a line of a column, which counts bytes from 1
  function placeOf(line, column) {
    let bytes = 1;
    let place = 0;
    for (const letter of line) {
      if (bytes >= column) break;
      bytes += new TextEncoder().encode(letter).length;
      place += letter.length;
    }
    return place;
  }

  // marks the word at a place, or its whole line if it has no column, and shows it
  function mark({ line, column }) {
    const handle = code.getLineHandle(line - 1);
    if (!handle) return;
    const words = handle.text;
    const from = column === null ? words.search(/\S|$/) : placeOf(words, column);
    const length = column === null ? words.trim().length : /^(?:\w+|[^\w\s]|)/.exec(words.slice(from))[0].length;
    const to = Math.max(from + length, from + 1);
    const range = to > words.length ? [Math.max(0, words.length - 1), words.length] : [from, to];
    const [start, end] = range.map((ch) => ({ line: line - 1, ch }));
    const made = code.markText(start, end, { className: 'fault' });
    code.addLineClass(handle, 'gutter', 'fault-line');
    marks.push({ mark: made, line: handle });
    code.scrollIntoView({ line: line - 1, ch: 0 }, 80);
  }

  // lights up a line, and no other
  function light(line) {
    if (lit) code.removeLineClass(lit, 'wrap', 'lit');
    lit = line === null ? null : code.getLineHandle(line - 1);
    if (lit) code.addLineClass(lit, 'wrap', 'lit');
  }

  const reveal = (line) => code.scrollIntoView({ line: line - 1, ch: 0 }, 80);

  const lineAt = (line) => code.getLine(line - 1) || '';

  // moves the cursor to a place, or to the end if the text has no such line any more
  function goTo({ line, column }) {
    const words = code.getLine(line - 1) || '';
    code.setCursor(line - 1, column === null ? 0 : placeOf(words, column));
    code.focus();
  }

  return {
    make,
    open,
    mark,
    clear,
    showCosts,
    light,
    reveal,
    lineAt,
    textFrom,
    setForm,
    goTo,
  };
})();
