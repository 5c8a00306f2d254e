'use strict';
// bench.js HMAC RSA URL: prints the least time of a call, in microseconds, on a token by HMAC and one by RS256, whose keys stand at a URL too.
const fs = require('node:fs');
const { Validator } = require('.');
const { RemoteKeys } = require('./remote.js');
const { SCHEME, tokenIn } = require('./requests.js');

const ROUNDS = 400;
const NOW = 1300819379;
const remember = { tokens: 10, octets: 4096 };

/** Prints the least time that so many calls take, which this makes. */
async function measure(label, calls, make) {
  let least = Infinity;
  for (let round = 0; round < ROUNDS; round++) {
    const begun = process.hrtime.bigint();
    const made = make(calls);
    if (made) await made;
    least = Math.min(least, Number(process.hrtime.bigint() - begun) / calls / 1000);
  }
  console.log(`${label} ${least.toFixed(3)}`);
}

function validating(validator, token) {
  return (calls) => {
    for (let n = 0; n < calls; n++) validator.validate(token, NOW);
  };
}

async function main(hmac, rsa, url) {
  const read = (name) => ['policy', 'keys', 'jwt'].map((end) => fs.readFileSync(`${name}.${end}`, 'utf8'));
  const [first, second, secret] = read(hmac), [policy, keys, token] = read(rsa);
  await measure('HS256 claims', 100, validating(new Validator(first, second), secret));
  await measure('RS256 claims', 20, validating(new Validator(policy, keys), token));
  await measure('HS256 claims, remembered', 200, validating(new Validator(first, second, { remember }), secret));
  await measure('RS256 claims, remembered', 200, validating(new Validator(policy, keys, { remember }), token));
  const remote = await RemoteKeys.open(policy, url, { allowHttp: true, remember });
  await measure('RS256 claims, remembered, keys by URL', 200, async (calls) => {
    for (let n = 0; n < calls; n++) await remote.validate(token, NOW);
  });
  remote.close();
  const value = `Bearer ${token}`;
  await measure('Authorization', 200, (calls) => {
    for (let n = 0; n < calls; n++) tokenIn(SCHEME.bearer, value);
  });
}

main(...process.argv.slice(2));
