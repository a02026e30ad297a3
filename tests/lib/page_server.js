'use strict';
// Answers the calls of tests/lib/page_program by the page's program, one after the other, since a node for each call
// would take a second. Words: the folder with the pipes `calls` and `replies`. A call of no words ends it.
const fs = require('fs');
const path = require('path');
const { load, answer } = require('../../page/ghost-node');

const [folder] = process.argv.slice(2);
const within = (name) => path.join(folder, name);

load().then(() => {
  for (;;) {
    const [directory, ...words] = fs.readFileSync(within('calls'), 'utf8').split('\0').slice(0, -1);
    if (words.length === 0) return;
    process.chdir(directory);
    const { status, text } = answer(words);
    fs.writeFileSync(within('text'), text);
    fs.writeFileSync(within('replies'), `${status}\n`);
  }
});
