'use strict';
// What a text is, which variables it declares, and the place of which an explanation speaks. Lines and columns are
// counted from 1.

const Places = (() => {
  const isAssembly = (text) => (/^[^\S\n]*([^\s;]\S*)/m.exec(text) || [])[1] === '.object';
  const formOf = (text) => (isAssembly(text) ? 'assembly' : 'source');

  // a source that has a procedure
  const hasProcedures = (text) => /\bproc\s+[A-Za-z_]\w*\s*\(/.test(text.replace(/\/\/[^\n]*/g, ''));

  // ---- variables

  const GAP = '(?:\\s|//[^\\n]*)*';
  const LENGTH = '(?:\\[\\s*(\\d+)\\s*\\])?';
  const DECLARATION = new RegExp(`${GAP}(public|secret)\\s+int\\s+([A-Za-z_]\\w*)${GAP}${LENGTH}${GAP};`, 'y');
  const SYMBOL = /^[^\S\n]*\.symbol[ \t]+(\w+)[ \t]+(public|secret)[ \t]+(scalar|array)(?:[ \t]+\d+){3}[ \t]+(\d+)/gm;

  function declaredIn(text) {
    const found = [];
    DECLARATION.lastIndex = 0;
    for (let it = DECLARATION.exec(text); it; it = DECLARATION.exec(text)) {
      const [, label, name, length] = it;
      found.push({ name, label, isArray: length !== undefined, length: Number(length || 1) });
    }
    return found;
  }

  function symbolsIn(text) {
    return Array.from(text.matchAll(SYMBOL), ([, name, label, shape, length]) => (
      { name, label, isArray: shape === 'array', length: Number(length) }));
  }

  // the variables of a source or of an assembly text, as far as their declarations can be read
  const variablesOf = (text) => (isAssembly(text) ? symbolsIn(text) : declaredIn(text));

  // ---- the place of an explanation

  // the line of the instruction at a place of an assembly text: notes, labels, comments and directives don't count
  function lineOfInstruction(text, place) {
    let seen = -1;
    const lines = text.split('\n');
    for (let i = 0; i < lines.length; i += 1) {
      const words = lines[i].replace(/;.*/, '').replace(/^\s*\w+:/, '').trim();
      if (words && !words.startsWith('.')) seen += 1;
      if (seen === place) return i + 1;
    }
    return null;
  }

  // the line that declares a symbol of an assembly text
  function lineOfSymbol(text, name) {
    const found = new RegExp(`^[^\\S\\n]*\\.symbol[ \\t]+${name}\\b`, 'm').exec(text);
    return found ? text.slice(0, found.index).split('\n').length : null;
  }

  // An explanation as it is shown. Its first line names a file, often a place in it, and the fault: that line becomes
  // `place` and `words`, the others are `more`.
  function explained(words) {
    const [first, ...more] = words.trimEnd().split('\n');
    const cut = (pattern) => pattern.exec(first);
    const result = { file: null, line: null, column: null, instruction: null, symbol: null, words: first, more };
    let found = cut(/^(program|input):(\d+):(\d+)[:,] (.*)$/);
    if (found) {
      const [, file, line, column, said] = found;
      return { ...result, file, line: Number(line), column: Number(column), words: said };
    }
    found = cut(/^(program|input):place (\d+): (.*)$/);
    if (found) return { ...result, file: found[1], instruction: Number(found[2]), words: found[3] };
    found = cut(/^program: \.symbol (\w+)$/);
    if (found) return { ...result, file: 'program', symbol: found[1], words: `.symbol ${found[1]}` };
    found = cut(/^(program|input): ?(.*)$/);
    return found ? { ...result, file: found[1], words: found[2] } : result;
  }

  // The place in the editor of which an explanation speaks, with the column if there is one; null if there is none. An
  // explanation of an object counts instructions, which an assembly text has line by line.
  function placeIn(text, { file, line, column, instruction, symbol }) {
    if (file !== 'program') return null;
    if (line !== null) return { line, column };
    if (!isAssembly(text)) return null;
    const own = symbol !== null ? lineOfSymbol(text, symbol)
      : instruction !== null && lineOfInstruction(text, instruction);
    return own ? { line: own, column: null } : null;
  }

  // ---- the words of an explanation

  // The explanations are those of the command. On the page its options are under Options, and it has no other verbs.
  const ON_THE_PAGE = [
    [/Raise it with --cycles N/, 'Raise it under Options'],
    [/, or choose larger blocks with --block-log\./, ', or choose larger blocks under Options.'],
    [/ `infer` writes [^.]*\./, ''],
    [/,? with `(?:tail|tr) [^`]*`/, ''],
    [/A call needs the option --procs, and an earlier procedure/, 'A call needs an earlier procedure'],
    [/Procedures need the option --procs: /, 'A procedure is written '],
    [/, and needs the option --procs\./, '.'],
  ];
  const onThePage = (words) => ON_THE_PAGE.reduce((it, [from, to]) => it.replace(from, to), words);

  return { formOf, hasProcedures, variablesOf, placeIn, explained: (words) => explained(onThePage(words)) };
})();

if (typeof module === 'object') module.exports = Places;
