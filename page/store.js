'use strict';
// What is kept in the browser, and what a link carries in its fragment, which no browser sends.

const Store = (() => {
  const KEY = 'ghostrider';
  const VERSION = '#1=';

  // what was kept, or null
  function load() {
    try {
      return JSON.parse(localStorage.getItem(KEY));
    } catch (error) {
      return null;
    }
  }

  // keeps a state; false if the browser has no room for it or keeps nothing
  function save(state) {
    try {
      localStorage.setItem(KEY, JSON.stringify(state));
      return true;
    } catch (error) {
      return false;
    }
  }

  async function through(bytes, stream) {
    return new Uint8Array(await new Response(new Blob([bytes]).stream().pipeThrough(stream)).arrayBuffer());
  }

  const bytesOf = (base64) => Uint8Array.from(atob(base64), (letter) => letter.charCodeAt(0));

  function base64Of(bytes) {
    let letters = '';
    for (let i = 0; i < bytes.length; i += 8192) letters += String.fromCharCode(...bytes.subarray(i, i + 8192));
    return btoa(letters);
  }

  // the fragment of a link that carries a value
  async function fragmentOf(value) {
    const packed = await through(new TextEncoder().encode(JSON.stringify(value)), new CompressionStream('deflate-raw'));
    return VERSION + base64Of(packed).replace(/\+/g, '-').replace(/\//g, '_').replace(/=+$/, '');
  }

  // the value that a fragment carries; null if it carries none, and an error if it is damaged
  async function valueOf(fragment) {
    if (!fragment.startsWith(VERSION)) return null;
    const packed = bytesOf(fragment.slice(VERSION.length).replace(/-/g, '+').replace(/_/g, '/'));
    const bytes = await through(packed, new DecompressionStream('deflate-raw'));
    const value = JSON.parse(new TextDecoder('utf-8', { ignoreBOM: true }).decode(bytes));
    const texts = [value.name, value.text, ...value.inputs];
    if (texts.length !== 4 || !texts.every((it) => typeof it === 'string')) throw new Error('no program');
    return value;
  }

  const unpacked = (base64) => through(bytesOf(base64), new DecompressionStream('gzip'));

  return { load, save, fragmentOf, valueOf, unpacked };
})();
