'use strict';
// Object files, read: their banks and their variables. The form of the file is that of docs/FORMATS.md. Like the engine
// this is a function, since the worker is made of its text; node takes it as a module.

function ghostObjects() {
  const MAGIC = [71, 82, 76, 84];
  const NO_WINDOW = 1;                // the version of a file without the three fields of a window
  const isObject = (bytes) => MAGIC.every((byte, i) => bytes[i] === byte);
  const memoryOf = (bank) => ['plain memory', 'encrypted memory'][bank] || `oblivious bank ${bank}`;

  // reads fields one after the other, lowest byte first
  class Fields {
    constructor(bytes) {
      this.view = new DataView(bytes.buffer, bytes.byteOffset, bytes.byteLength);
      this.at = 0;
    }

    take(size) {
      this.at += size;
      const from = this.at - size;
      if (size === 1) return this.view.getUint8(from);
      return size === 2 ? this.view.getUint16(from, true) : this.view.getUint32(from, true);
    }

    name() {
      return String.fromCharCode(...Array.from({ length: this.take(1) }, () => this.take(1)));
    }
  }

  function bankIn(fields) {
    return { blocks: fields.take(4), latency: fields.take(4) };
  }

  function symbolIn(fields) {
    const name = fields.name();
    const label = fields.take(1) ? 'secret' : 'public';
    const isArray = fields.take(1) === 1;
    return { name, label, isArray, bank: fields.take(1), block: fields.take(4), word: fields.take(2),
      length: fields.take(4) };
  }

  // the banks and the variables of an object file that the program takes
  function read(bytes) {
    const fields = new Fields(bytes);
    fields.take(4);
    const version = fields.take(2);
    const blockWords = 2 ** fields.take(1);
    fields.take(4);
    if (version !== NO_WINDOW) for (let i = 0; i < 3; i += 1) fields.take(4);
    const banks = Array.from({ length: fields.take(1) }, () => bankIn(fields));
    const symbols = Array.from({ length: fields.take(2) }, () => symbolIn(fields));
    return { blockWords, banks, symbols };
  }

  const firstWord = (object, symbol) => symbol.block * object.blockWords + symbol.word;

  // the variable that has a word of a block, with the place of the word in it; null if none has it
  function variableAt(object, bank, block, word) {
    const place = block * object.blockWords + word;
    const symbol = object.symbols.find((it) => it.bank === bank && place >= firstWord(object, it)
      && place < firstWord(object, it) + it.length);
    return symbol ? { symbol, index: place - firstWord(object, symbol) } : null;
  }

  // the variables that have words in a block
  function variablesIn(object, bank, block) {
    const [from, to] = [block * object.blockWords, (block + 1) * object.blockWords];
    return object.symbols.filter((it) => it.bank === bank && firstWord(object, it) < to
      && firstWord(object, it) + it.length > from);
  }

  return { isObject, memoryOf, read, variableAt, variablesIn };
}

if (typeof module === 'object') module.exports = ghostObjects;
