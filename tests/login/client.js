'use strict';
/** Speaks for login.js, which lies in the folder that it is told: as client.py. */
const path = require('node:path');
const { createInterface } = require('node:readline');
const { provider, begin, finish } = require(path.join(process.argv[2], 'login.js'));

const said = ({ name, message, fault, claim }) =>
  message.startsWith('the token endpoint answers ') ? `HTTP ${message.split(' ').pop()}` : [name, fault, claim].filter((it) => it !== undefined).join(' ');

async function main() {
  const known = await provider(), session = {};
  for await (const line of createInterface({ input: process.stdin })) {
    const [word, rest] = line.split('\t');
    try {
      console.log(word === 'begin' ? begin(session, known) : `in ${(await finish(session, rest, known)).sub}`);
    } catch (error) {
      console.log(said(error));
    }
  }
  known.keys.close();
}

main();
