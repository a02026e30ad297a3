'use strict';
// Tries the page in a browser without a window, by what a user does and sees. The word is the folder for pictures of
// the page. It ends with status 3 if Chromium isn't installed. Firefox is tried too if it is.
// Further words are the groups to play (tests/lib/page).
const chromium = require('./browser.js');
const firefox = require('./firefox.js');
const { User } = require('./page/user.js');

const GROUPS = ['examples', 'links', 'verdicts', 'files', 'inputs', 'picture', 'access', 'speed'];
const [out, ...chosen] = process.argv.slice(2);

async function play(user, group) {
  for (const part of require(`./page/${group}.js`)) {
    await part(user).catch((error) => user.says(false, part.name, error.message));
  }
}

async function inChromium(user) {
  const { browser } = user;
  await user.opensAnew();
  for (const group of chosen.length ? chosen : GROUPS) await play(user, group);
  user.says(browser.complaints.length === 0, 'the page has no complaint', browser.complaints.join('; '));
  const foreign = browser.fetched.filter((url) => !/^(?:file|blob|data|about):|^http:\/\/127\.0\.0\.1:/.test(url));
  user.says(foreign.length === 0, 'and fetches nothing', foreign.join(' '));
}

// plays in a browser, and closes it; the number of failures
async function inBrowser(browser, playing) {
  const user = new User(browser, out);
  try {
    await playing(user);
  } finally {
    user.leaves();
    await browser.close();
  }
  return user.failures;
}

async function main() {
  const file = chromium.find();
  if (!file) process.exit(3);
  let failures = 0;
  if (chosen.join() !== 'firefox') {
    failures += await inBrowser(await chromium.Browser.open(file, '1280,1000'), inChromium);
  }
  const other = firefox.find();
  if (other && (!chosen.length || chosen.includes('firefox'))) {
    failures += await inBrowser(await firefox.Firefox.open(other), (user) => play(user, 'firefox'));
  } else if (!other) {
    console.log('skipped: there is no Firefox');
  }
  console.log('done');
  process.exitCode = failures ? 1 : 0;
}

main();
