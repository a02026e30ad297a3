'use strict';
// The inputs of both runs, a JSON object each. The JSON is what runs; the form rewrites it, and numbers stay as they
// were typed, digit by digit.

// ---- JSON whose numbers are kept as text

const Inputs = {
  // The members of a JSON object, each a text for a number, a list of such texts, or null for anything else; null if
  // the text isn't a JSON object.
  read(json) {
    const marked = json.replace(/("(?:[^"\\]|\\.)*")|-?\d[\d.eE+-]*/g, (all, text) => text || `"#${all}"`);
    let value = null;
    try {
      JSON.parse(json);
      value = JSON.parse(marked);
    } catch (error) {
      return null;
    }
    if (value === null || typeof value !== 'object' || Array.isArray(value)) return null;
    const number = (it) => (typeof it === 'string' && it.startsWith('#') ? it.slice(1) : null);
    return new Map(Object.entries(value).map(([name, it]) => [name, Array.isArray(it) ? it.map(number) : number(it)]));
  },

  write(members) {
    const words = (it) => (Array.isArray(it) ? `[${it.join(',')}]` : it);
    return `{${Array.from(members, ([name, it]) => `${JSON.stringify(name)}:${words(it)}`).join(',')}}`;
  },

  // The words of a variable in a run, with zeros where the inputs have none; null if they have something else.
  wordsOf(members, { name, isArray, length }) {
    if (!members) return null;
    const it = members.get(name);
    if (it === undefined) return isArray ? [] : ['0'];
    if (isArray !== Array.isArray(it)) return null;
    const words = isArray ? it : [it];
    return words.length <= length && words.every((word) => word !== null) ? words : null;
  },

  // the public variables whose inputs differ, with the first word that does
  disagreements(variables, runs) {
    return variables.filter((it) => it.label === 'public').flatMap((variable) => {
      const words = runs.map((members) => Inputs.wordsOf(members, variable));
      if (words.includes(null)) return [];
      const count = Math.max(...words.map((it) => it.length));
      for (let i = 0; i < count; i += 1) {
        const [one, two] = words.map((it) => it[i] || '0');
        if (one !== two) return [{ variable, index: i, one, two }];
      }
      return [];
    });
  },

  // random words in the range of the given ones, or from -1000 to 999 if these are all equal
  randomLike(words, length, random = Math.random) {
    const numbers = words.map(Number).filter(Number.isSafeInteger);
    let [low, high] = [Infinity, -Infinity];
    for (const number of numbers) {
      low = Math.min(low, number);
      high = Math.max(high, number);
    }
    if (!(high > low)) [low, high] = [-1000, 999];
    return Array.from({ length }, () => String(low + Math.floor(random() * (high - low + 1))));
  },
};

if (typeof module === 'object') module.exports = Inputs;
