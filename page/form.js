'use strict';
// The form of the inputs: a row for each variable, coloured by its label, and a field for each run. An array takes the
// words at its front, and the others are zeros.

const Form = (() => {
  const MOST_WORDS = 4096;            // of an array that has a field

  const made = (parent, name, attributes = {}, text = null) => {
    const node = document.createElement(name);
    for (const [key, value] of Object.entries(attributes)) node.setAttribute(key, value);
    if (text !== null) node.textContent = text;
    parent.append(node);
    return node;
  };

  // the words without the zeros at their end
  function trimmed(words) {
    let end = words.length;
    while (end > 0 && words[end - 1] === '0') end -= 1;
    return words.slice(0, end);
  }

  // the words of a field, without leading zeros; null if it has anything else, or too many
  function wordsIn(field, { length }) {
    const words = field.value.split(/[\s,]+/).filter(Boolean);
    const valid = words.length <= length && words.every((word) => /^-?\d+$/.test(word));
    return valid ? words.map((word) => String(BigInt(word))) : null;
  }

  class View {
    // `texts` are the two areas with the JSON; `changed` is called after the form has changed one
    constructor(parent, texts, changed) {
      Object.assign(this, { parent, texts, changed, variables: [], fields: [] });
    }

    members() {
      return this.texts.map((text) => Inputs.read(text.value));
    }

    show(variables) {
      const same = JSON.stringify(variables) === JSON.stringify(this.variables);
      this.variables = variables;
      if (!same) this.build();
      this.refresh();
    }

    build() {
      this.parent.replaceChildren();
      this.fields = [];
      if (!this.variables.length) {
        made(this.parent, 'p', { class: 'quiet' }, 'The program declares no variables.');
        return;
      }
      const table = made(this.parent, 'table', { class: 'form' });
      const head = made(made(table, 'thead'), 'tr');
      for (const words of ['Variable', 'Run 1', 'Run 2']) made(head, 'th', { scope: 'col' }, words);
      const body = made(table, 'tbody');
      for (const variable of this.variables) this.row(body, variable);
    }

    row(body, variable) {
      const row = made(body, 'tr', { class: variable.label, 'data-name': variable.name });
      const head = made(row, 'th', { scope: 'row' });
      made(head, 'span', { class: 'label' }, variable.label);
      head.append(` ${variable.name}${variable.isArray ? `[${variable.length}]` : ''}`);
      const fields = [0, 1].map((run) => {
        const field = made(made(row, 'td'), 'input', { type: 'text', spellcheck: 'false', autocomplete: 'off',
          inputmode: variable.isArray ? 'text' : 'numeric', placeholder: '0',
          'aria-label': `${variable.name} in run ${run + 1}`, 'data-run': run + 1 });
        field.oninput = () => this.take(variable, run, field);
        return field;
      });
      this.fields.push({ variable, row, fields });
    }

    // writes a field's words to the JSON of its run
    take(variable, run, field) {
      const words = wordsIn(field, variable);
      field.setAttribute('aria-invalid', words === null);
      const members = this.members()[run];
      if (words === null || !members) return;
      const filled = words.concat(Array(variable.length - words.length).fill('0'));
      members.set(variable.name, variable.isArray ? filled : filled[0]);
      this.texts[run].value = Inputs.write(members);
      this.markDisagreements();
      this.changed();
    }

    // shows the JSON in the fields, but for the one that is being typed in
    refresh() {
      const members = this.members();
      for (const { variable, fields } of this.fields) {
        fields.forEach((field, run) => {
          if (field === document.activeElement) return;
          const words = Inputs.wordsOf(members[run], variable);
          const shown = words && (variable.isArray ? trimmed(words) : words);
          const fits = shown !== null && shown.length <= MOST_WORDS;
          field.readOnly = !fits;
          field.setAttribute('aria-invalid', words === null);
          field.value = fits ? shown.join(', ') : '';
          field.placeholder = fits ? '0' : words === null ? 'not in the form: see the JSON' : 'long: see the JSON';
        });
      }
      this.markDisagreements();
    }

    disagreements() {
      return Inputs.disagreements(this.variables, this.members());
    }

    markDisagreements() {
      const names = new Set(this.disagreements().map((it) => it.variable.name));
      for (const { variable, row } of this.fields) row.classList.toggle('differs', names.has(variable.name));
    }

    // fills run 2 with the public words of run 1 and with random secrets
    randomSecrets() {
      const first = this.members()[0];
      if (!first) return;
      const second = new Map(first);
      for (const variable of this.variables.filter((it) => it.label === 'secret')) {
        const words = Inputs.wordsOf(first, variable) || [];
        const random = Inputs.randomLike(words, variable.length);
        second.set(variable.name, variable.isArray ? random : random[0]);
      }
      this.texts[1].value = Inputs.write(second);
      this.refresh();
      this.changed();
    }
  }

  return { View, made };
})();
