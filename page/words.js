'use strict';
// The words that the editor colours. Made by editors/make: change that script, not this file.
const WORDS = {
  "source": {
    "comment": "//",
    "labels": [
      "public",
      "secret"
    ],
    "keywords": [
      "else",
      "if",
      "int",
      "while"
    ],
    "procedure": "proc"
  },
  "assembly": {
    "comment": ";",
    "labels": [
      "public",
      "secret"
    ],
    "keywords": [
      ".object",
      ".note",
      ".bank",
      ".symbol"
    ],
    "procedure": null
  }
};
