'use strict';
// The functions that the worker is made of, as the page calls them itself. The engine here is never loaded: it only
// reads the lines of traces.

const Engine = ghostEngine();
const Objects = ghostObjects();
const Marks = ghostMarks();
