'use strict';
// The documents of the page: the examples, and the files that were opened. Each has its text with its undo history, and
// its inputs. What was edited is kept, also if another document is chosen.

const Documents = (() => {
  const GROUPS = ['Programs', 'A leak beside its fix', 'Assembly', 'Opened'];
  const decoder = new TextDecoder('utf-8', { fatal: true, ignoreBOM: true });
  const MOST_EDITED = 25_000_000;     // bytes of a file that is opened in the editor
  const MOST_KEPT = 2_000_000;        // letters of a text
  const list = [];

  class Document {
    // `bytes` are those of a file that can't be edited here: an object, or a file that isn't UTF-8
    constructor({ name, group, text, inputs = ['{}', '{}'], bytes = null, note = '' }) {
      Object.assign(this, { name, group, bytes, note, inputs: [...inputs] });
      this.original = group === 'Opened' ? null : { text, inputs: [...inputs] };
      this.text = Editor.textFrom(text, Places.formOf(text));
      this.text.markClean();
      list.push(this);
    }

    // the text; it is put together only once for each state of the editor
    words() {
      const generation = this.text.changeGeneration();
      if (!this.cache || this.cache.generation !== generation) this.cache = { generation, words: this.text.getValue() };
      return this.cache.words;
    }

    form() {
      if (this.bytes && Objects.isObject(this.bytes)) return 'object';
      return Places.formOf(this.bytes ? new TextDecoder().decode(this.bytes) : this.words());
    }

    variables() {
      if (this.form() !== 'object') return Places.variablesOf(this.words());
      try {
        return Objects.read(this.bytes).symbols;
      } catch (error) {
        return [];                    // the file is damaged, which the check says in full
      }
    }

    isEdited() {
      if (!this.original) return true;
      return !this.text.isClean() || this.original.inputs.some((it, run) => it !== this.inputs[run]);
    }

    restore() {
      this.text.setValue(this.original.text);
      this.text.markClean();
      this.inputs = [...this.original.inputs];
    }

    // takes the text and the inputs that were kept
    resume({ text, inputs }) {
      if (text !== this.words()) this.text.setValue(text);
      this.inputs = [...inputs];
    }

    // the name without its ending, for files that are made of it
    base() {
      return this.name.replace(/\.\w+$/, '') || 'program';
    }
  }

  // a name that no document has
  function freeName(name) {
    const names = new Set(list.map((it) => it.name));
    let free = name;
    for (let i = 2; names.has(free); i += 1) free = name.replace(/(\.\w+)?$/, ` (${i})$1`);
    return free;
  }

  // the document of a file that was opened
  function fromFile(file, bytes) {
    const name = freeName(file);
    const readOnly = (note) => new Document({ name, group: 'Opened', text: `; ${note}\n`, bytes, note });
    if (Objects.isObject(bytes)) {
      return readOnly(`${file} is an object file of ${bytes.length.toLocaleString('en-US')} bytes.`);
    }
    if (bytes.length > MOST_EDITED) return readOnly(`${file} is too long to be edited here. It is checked as it is.`);
    let text;
    try {
      text = decoder.decode(bytes);
    } catch (error) {
      return readOnly(`${file} isn’t UTF-8 text. It is checked as it is, and can’t be edited here.`);
    }
    return new Document({ name, group: 'Opened', text });
  }

  function addExamples() {
    for (const [name, { source, one, two, group }] of Object.entries(EXAMPLES)) {
      new Document({ name, group, text: source, inputs: [one, two] });
    }
  }

  // the documents that were edited, as they are kept; files that can't be edited aren't, nor are texts that are so long
  // that no browser has room for them
  function kept() {
    return list.filter((it) => it.isEdited() && !it.bytes && it.words().length <= MOST_KEPT).map((it) => (
      { name: it.name, group: it.group, text: it.words(), inputs: it.inputs }));
  }

  function resume(drafts) {
    for (const draft of drafts) {
      const found = list.find((it) => it.name === draft.name);
      if (found) found.resume(draft);
      else new Document({ ...draft, group: 'Opened' });
    }
  }

  return {
    list, GROUPS, MOST_KEPT, fromFile, addExamples, kept, resume, find: (name) => list.find((it) => it.name === name),
    add: (name, text, inputs) => new Document({ name: freeName(name), group: 'Opened', text, inputs }),
  };
})();
