'use strict';
// jose.js NAME ..: prints the least time of a call of jose, in microseconds, on each of these tokens, whose names end with the algorithm (Debian: node-jose).
const fs = require('node:fs');
const path = require('node:path');
const jose = require(process.env.JOSE ?? 'jose');

const ROUNDS = 200;
const NOW = 1300819379;

async function measure(name) {
  const ending = path.basename(name), alg = ending === 'Ed25519' ? 'EdDSA' : ending, calls = alg === 'HS256' ? 100 : 20;
  const token = fs.readFileSync(`${name}.jwt`, 'utf8').trim(), set = JSON.parse(fs.readFileSync(`${name}.keys`, 'utf8'));
  const key = await jose.importJWK({ ...set.keys[0], alg });
  const options = { algorithms: [alg], issuer: 'joe', requiredClaims: ['exp', 'iss'], currentDate: new Date(NOW * 1000) };
  let least = Infinity;
  for (let round = 0; round < ROUNDS; round++) {
    const begun = process.hrtime.bigint();
    for (let n = 0; n < calls; n++) await jose.jwtVerify(token, key, options);
    least = Math.min(least, Number(process.hrtime.bigint() - begun) / calls / 1000);
  }
  console.log(`${ending} claims ${least.toFixed(3)}`);
}

(async () => {
  for (const name of process.argv.slice(2)) await measure(name);
})();
