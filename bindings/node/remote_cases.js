'use strict';
/** Opens keys by URL, and several issuers, and judges by them as tests/remote/run and tests/issuers/run say, a command a line. */
const fs = require('node:fs');
const readline = require('node:readline');
const { Closed, PolicyRefused, TokenRefused, Validator } = require('.');
const { Issuers } = require('./issuers.js');
const { KeysUnavailable, RemoteKeys } = require('./remote.js');

let keys, load;

async function opened(open, [policy, url, cooldown, refreshAfter, maxAge, timeout, authority, http]) {
  const times = Object.fromEntries(Object.entries({ cooldown, refreshAfter, maxAge, timeout }).map(([name, it]) => [name, Number(it)]));
  const ca = authority === '-' ? undefined : fs.readFileSync(authority);
  try {
    keys = await open(fs.readFileSync(policy), url, { ...times, ca, allowHttp: http === '1' });
  } catch (error) {
    if (error instanceof KeysUnavailable) return 'unavailable';
    if (error instanceof PolicyRefused) return 'policy';
    return error instanceof TypeError ? 'misused' : String(error);
  }
  return 'opened';
}

function openedIssuers(words) {
  const all = {};
  for (let at = 0; at + 2 < words.length; at += 3) all[words[at]] = new Validator(fs.readFileSync(words[at + 1]), fs.readFileSync(words[at + 2]));
  try {
    keys = new Issuers(all);
  } catch (error) {
    return error instanceof TypeError ? 'misused' : String(error);
  }
  return 'opened';
}

async function validated([path, now]) {
  return judged(fs.readFileSync(path), Number(now));
}

async function judged(token, now) {
  try {
    await keys.validate(token, now);
  } catch (error) {
    if (error instanceof TokenRefused) return error.fault;
    return error instanceof Closed ? 'Closed' : String(error);
  }
  return 'accepted';
}

/** How many tokens are answered at once, and how many later, where all are judged at the same time. */
async function crowd([path, now]) {
  const tokens = fs.readFileSync(path, 'latin1').trimEnd().split('\n'), begun = performance.now();
  let atOnce = 0;
  await Promise.all(tokens.map(async (it) => {
    await judged(it, Number(now));
    if (performance.now() - begun < 1200) atOnce++;
  }));
  return `${atOnce} ${tokens.length - atOnce}`;
}

/** So many calls at a time, each after the one before it, until they are told to rest. */
class Load {
  judged = 0;
  wrong = 0;
  isOver = false;

  constructor([path, now, count]) {
    this.token = fs.readFileSync(path);
    this.now = Number(now);
    this.running = Array.from({ length: Number(count) }, () => this.run());
  }

  async run() {
    while (!this.isOver) {
      if ((await judged(this.token, this.now)) !== 'accepted') this.wrong++;
      this.judged++;
      await new Promise(setImmediate);
    }
  }

  async rest() {
    this.isOver = true;
    await Promise.all(this.running);
    return `${this.judged} ${this.wrong}`;
  }
}

const ANSWERS = {
  open: (words) => opened(RemoteKeys.open, words),
  discover: (words) => opened(RemoteKeys.discover, words),
  issuers: openedIssuers,
  validate: validated,
  crowd,
  load: (words) => ((load = new Load(words)), 'loading'),
  rest: () => load.rest(),
  // (so that what is resident is what is held)
  refresh: () => keys.refresh().finally(() => global.gc?.()),
  close: () => (keys.close(), 'closed'),
};

async function main() {
  for await (const line of readline.createInterface({ input: process.stdin })) {
    const [what, ...words] = line.split('\t');
    console.log(String(await ANSWERS[what](words)));
  }
}

main();
