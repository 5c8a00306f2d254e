'use strict';
/**
 * Leaves in Object.prototype what a careless merge of a stranger's JSON may leave there: each option of this package under its name, with a value by
 * which tests would end otherwise. `node --require ./test/planted.js test/tokens.test.js` runs them with it. Under `timeout` Node's own sockets look there
 * for the list of who listens, and make no connection where another value stands: so it is a list, of whose length nobody warns. (Node's resolver is made
 * before, since it takes a number from there. Its client of HTTP takes `method` from there.)
 */
require('node:dns');
Object.assign(Object.prototype, {
  access: 'planted', expected: 'planted', hashes: 'planted', holder: 'planted', dpop: 'planted', uri: 'planted', nonce: 'planted', now: 1300819379, remember: 'planted', tokens: -1, octets: -1, key: 7, alg: 'planted', form: 'planted', typ: 7,
  rule: 'planted', realm: '"', hidesToken: 'planted', origin: 'planted', proofs: 'planted', nonces: 'planted', only: 'planted', originalUrl: '/planted', token: 'planted', scheme: 1, onRefusal: 'planted', refreshAfter: -1, cooldown: -1, maxAge: -1, allowHttp: 'planted', ca: '', onFetch: 'planted',
  timeout: Object.assign([], { warned: true }),
});
