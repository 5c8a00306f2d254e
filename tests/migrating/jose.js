'use strict';
// Asks jose for Node: jose.js QUESTIONS
const fs = require('node:fs');
const jose = require('jose');

const textOf = (word) => (word === '-' ? undefined : Buffer.from(word, 'hex').toString());

async function judge(algs, kind, key, issuer, audience, required, leeway, token) {
  const octets = Buffer.from(key, 'hex');
  // (version 4.11.4 passes over `requiredClaims`, which later ones have)
  const options = {
    algorithms: algs.split(','), issuer: textOf(issuer), audience: textOf(audience), clockTolerance: Number(leeway),
    requiredClaims: required === '-' ? [] : required.split(',').map(textOf), currentDate: new Date(Number(process.env.MOMENT) * 1000),
  };
  const text = textOf(token) ?? '';
  await jose.jwtVerify(text, kind === 'pem' ? require('node:crypto').createPublicKey(octets) : octets, options);
}

(async () => {
  for (const line of fs.readFileSync(process.argv[2], 'utf8').trimEnd().split('\n')) {
    const [name, ...fields] = line.split('\t');
    try {
      await judge(...fields);
      console.log(`${name}\taccepted`);
    } catch (error) {
      console.log(`${name}\t${error.code ?? error.name}`);
    }
  }
})();
