'use strict';
// claims.js NAME ..: prints the least time of a call, in microseconds, on each of these tokens.
const fs = require('node:fs');
const path = require('node:path');
const { Validator } = require('.');

const ROUNDS = 200;
const CALLS = 20;
const NOW = 1300819379;

for (const name of process.argv.slice(2)) {
  const [policy, keys, token] = ['policy', 'keys', 'jwt'].map((end) => fs.readFileSync(`${name}.${end}`, 'utf8'));
  const validator = new Validator(policy, keys);
  let least = Infinity;
  for (let round = 0; round < ROUNDS; round++) {
    const begun = process.hrtime.bigint();
    for (let n = 0; n < CALLS; n++) validator.validate(token, NOW);
    least = Math.min(least, Number(process.hrtime.bigint() - begun) / CALLS / 1000);
  }
  console.log(`${path.basename(name)} claims ${least.toFixed(3)}`);
}
