'use strict';
// The program as a function. It runs in a worker of the page, whose source is the text of this function, and in node.
// Words, files and the file `output` are bytes. Each call has an instance of the module of its own, so nothing stays
// behind a call that ends in a trap, and its memory is given back.

function ghostEngine() {
  const MOST_TEXT = 2 ** 29;          // bytes of text that a call may put
  const USAGE = 2;                    // the status of words that fit no verb
  const coder = new TextEncoder();
  const decoder = new TextDecoder();
  let module = null;

  class NoMemory extends Error {
    constructor() {
      super('memory ran out');
      this.name = 'NoMemory';
    }
  }

  async function load(bytes) {
    module = await WebAssembly.compile(bytes);
  }

  // what is given back once a call is done: a room of the module's memory
  function roomIn(exports, size) {
    const at = exports.malloc(BigInt(Math.max(size, 1)));
    if (at === 0n) throw new NoMemory();
    return at;
  }

  function instantiate() {
    try {
      return new WebAssembly.Instance(module, {}).exports;
    } catch (error) {
      throw error instanceof RangeError ? new NoMemory() : error;
    }
  }

  // an instance of the module, with what puts bytes into its memory and what reads an answer out of it
  function instance() {
    const exports = instantiate();
    const { memory } = exports;
    const put = (bytes) => {
      const at = roomIn(exports, bytes.length);
      new Uint8Array(memory.buffer, Number(at), bytes.length).set(bytes);
      return [at, BigInt(bytes.length)];
    };
    const bytesAt = (at, count) => new Uint8Array(memory.buffer, Number(at), count).slice();
    const told = (answer) => {
      const view = new DataView(memory.buffer, Number(answer), 24);
      return {
        status: view.getUint32(0, true),
        written: view.getUint32(4, true) === 1,
        textLength: Number(view.getBigUint64(8, true)),
        fileLength: Number(view.getBigUint64(16, true)),
      };
    };
    return { exports, memory, put, bytesAt, told };
  }

  // one call with this much room for the text and for the file
  function once(words, program, input, textRoom, fileRoom) {
    const { exports, memory, put, bytesAt, told } = instance();
    const given = [coder.encode(words.join('\n')), program, input].flatMap(put);
    const text = roomIn(exports, textRoom);
    const file = roomIn(exports, fileRoom);
    const answer = roomIn(exports, 24);
    exports.ghost_call(...given, text, BigInt(textRoom), file, BigInt(fileRoom), answer);
    const { status, written, textLength, fileLength } = told(answer);
    return {
      status,
      fileLength,
      text: bytesAt(text, Math.min(textLength, textRoom)),
      output: written && fileLength <= fileRoom ? bytesAt(file, fileLength) : null,
      memory: memory.buffer.byteLength,
    };
  }

  // rooms are a little below powers of two, since the module's heap keeps 16 bytes before each
  const roomOf = (bits) => 2 ** bits - 16;

  const bytesOf = (it) => (typeof it === 'string' ? coder.encode(it) : it || new Uint8Array(0));

  // Calls the program. Where the text or the file had no room, it is called again with more.
  function call(words, program, input) {
    const [given, inputs] = [bytesOf(program), bytesOf(input)];
    let textBits = 20;
    let fileRoom = roomOf(20);
    for (;;) {
      const told = once(words, given, inputs, roomOf(textBits), fileRoom);
      if (told.status === 4 && 2 ** textBits < MOST_TEXT) textBits += 3;
      else if (told.fileLength > fileRoom) fileRoom = told.fileLength;
      else return told;
    }
  }

  // What the fault of a call means, in words for people; nothing where nothing can be said. `usage` is the line of its
  // verb in the table of verbs.
  function explain(status, usage, words, program, input) {
    const { exports, put, bytesAt, told } = instance();
    const given = [coder.encode([status, usage, ...words].join('\n')), bytesOf(program), bytesOf(input)].flatMap(put);
    const room = roomOf(20);
    const text = roomIn(exports, room);
    const answer = roomIn(exports, 24);
    exports.ghost_explain(...given, text, BigInt(room), answer);
    const { status: ended, textLength } = told(answer);
    return ended === 0 && textLength <= room ? decoder.decode(bytesAt(text, textLength)) : '';
  }

  // one call of a tool with this much room for its text
  function toolOnce(words, program, input, room) {
    const { exports, put, bytesAt, told } = instance();
    if (!exports.ghost_tool) return { status: USAGE, text: new Uint8Array(0) };
    const given = [coder.encode(words.join('\n')), program, input].flatMap(put);
    const text = roomIn(exports, room);
    const answer = roomIn(exports, 24);
    exports.ghost_tool(...given, text, BigInt(room), answer);
    const { status, textLength } = told(answer);
    return { status, text: bytesAt(text, Math.min(textLength, room)) };
  }

  // What the tool `layout`, `listing` or `profile` prints, and its status. A module that was made without the tools fails
  // as if they were unknown.
  function tool(words, program, input) {
    const [given, inputs] = [bytesOf(program), bytesOf(input)];
    for (let bits = 20; ; bits += 3) {
      const told = toolOnce(words, given, inputs, roomOf(bits));
      if (told.status !== 4 || 2 ** bits >= MOST_TEXT) return told;
    }
  }

  // ---- traces

  // the class of a line of a trace: 0 and 1 plain read and written, 2 and 3 encrypted, 4 the halt, 10 + b an access to
  // the oblivious bank b, 30 + b the path of one; none of the last lines
  function kindOf(text, at) {
    const letter = text[at];
    if (letter === 68 || letter === 69) return (letter === 69 ? 2 : 0) + (text[at + 2] === 119 ? 1 : 0);
    if (letter === 72) return 4;
    if (letter === 79) return 10 + text[at + 1] - 48;
    return letter === 80 ? 30 + text[at + 1] - 48 : null;
  }

  // the lines of a trace that have stamps, with their stamps, their kinds and where they begin
  function linesOf(text) {
    let count = 0;
    for (let at = text.indexOf(10); at >= 0; at = text.indexOf(10, at + 1)) count += 1;
    const stamps = new Float64Array(count);
    const kinds = new Uint8Array(count);
    const starts = new Uint32Array(count + 1);
    let used = 0;
    let at = 0;
    while (used < count && text[at] >= 48 && text[at] <= 57) {
      starts[used] = at;
      let stamp = 0;
      for (; text[at] !== 32; at += 1) stamp = stamp * 10 + text[at] - 48;
      stamps[used] = stamp;
      kinds[used] = kindOf(text, at + 1);
      used += 1;
      at = text.indexOf(10, at) + 1;
    }
    starts[used] = at;
    return { stamps: stamps.subarray(0, used), kinds: kinds.subarray(0, used), starts: starts.subarray(0, used + 1) };
  }

  // the items of an array at the places where `keeps` says so
  function kept(array, kinds, keeps) {
    let used = 0;
    const items = new array.constructor(kinds.length);
    for (let i = 0; i < kinds.length; i += 1) {
      if (keeps(kinds[i])) {
        items[used] = array[i];
        used += 1;
      }
    }
    return items.slice(0, used);
  }

  // a trace: its events, the paths of its accesses, and how it ended
  function traceOf(text) {
    const { stamps, kinds, starts } = linesOf(text);
    const isPath = (kind) => kind >= 30;
    const isEvent = (kind) => kind < 30;
    const pathStarts = kept(starts, kinds, isPath);
    return {
      text,
      stamps: kept(stamps, kinds, isEvent),
      kinds: kept(kinds, kinds, isEvent),
      starts: kept(starts, kinds, isEvent),
      paths: {
        stamps: kept(stamps, kinds, isPath),
        banks: kept(kinds, kinds, isPath).map((kind) => kind - 30),
        leaves: Uint32Array.from(pathStarts, (start) => leafAt(text, start)),
      },
      end: endOf(text, starts[kinds.length]),
    };
  }

  // the leaf of a path's last tree: that of the bank's blocks
  function leafAt(text, start) {
    const line = decoder.decode(text.subarray(start, text.indexOf(10, start)));
    return Number(line.slice(line.lastIndexOf(' ') + 1));
  }

  function endOf(text, at) {
    const end = text.indexOf(10, at);
    return decoder.decode(text.subarray(at, end < 0 ? text.length : end));
  }

  function lineEnd(trace, i) {
    const end = trace.text.indexOf(10, trace.starts[i]);
    return end < 0 ? trace.text.length : end;
  }

  function lineOf(trace, i) {
    return decoder.decode(trace.text.subarray(trace.starts[i], lineEnd(trace, i)));
  }

  function sameLine(one, two, i) {
    const [from, to] = [one.starts[i], lineEnd(one, i)];
    const [start, end] = [two.starts[i], lineEnd(two, i)];
    if (to - from !== end - start) return false;
    for (let k = 0; k < to - from; k += 1) if (one.text[from + k] !== two.text[start + k]) return false;
    return true;
  }

  // the place of the first event that two traces don't share, or none where they are equal
  function firstDifference(one, two) {
    const shared = Math.min(one.kinds.length, two.kinds.length);
    for (let i = 0; i < shared; i += 1) if (!sameLine(one, two, i)) return i;
    return one.kinds.length === two.kinds.length && one.end === two.end ? null : shared;
  }

  return { load, call, explain, tool, traceOf, firstDifference, lineOf, NoMemory };
}

if (typeof module === 'object') module.exports = ghostEngine;
