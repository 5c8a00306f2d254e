'use strict';
/** Tests of who holds the key of a token, over the proofs of the repository. tokens.test.js runs them, each by its name. */

const assert = require('node:assert');
const crypto = require('node:crypto');
const { once } = require('node:events');
const fs = require('node:fs');
const http = require('node:http');
const path = require('node:path');
const { Worker, isMainThread, parentPort } = require('node:worker_threads');
const fow = require('..');
const meanings = require('../meanings.js');

const TOP = process.env.FOWHARIMU_TOP ?? path.resolve(__dirname, '../../..');
const TABLE = path.join(TOP, 'tests/possession/cases.jsonl'), FAPI = path.join(TOP, 'examples/profiles/fapi2');
const NOW = 1300819379, THINGS = 'https://api.example/things';

/** The table of proofs. */
function table() {
  const [first, ...rows] = fs.readFileSync(TABLE, 'utf8').trimEnd().split('\n').map((line) => JSON.parse(line));
  const validator = new fow.Validator(first.access_policy, first.access_keys);
  return { policy: first.policy, rows, good: rows[0], validator, proofs: (memory = new fow.Once(1, { opened: 0 })) => new fow.Proofs(first.policy, memory) };
}

/** The proof of a row. */
function proofOf({ proof: dpop, method, uri, nonce }, proofs) {
  return new fow.Proof(proofs, nonce === null ? { dpop, method, uri } : { dpop, method, uri, nonce });
}

/** What is said of a call: `held`, or the name of the fault of a holder. */
function said(call) {
  try {
    call();
    return 'held';
  } catch (error) {
    if (error instanceof fow.NotHeld) return error.fault;
    throw error;
  }
}

/** A call whose sender hasn't shown the key, for this reason. */
function notHeld(call, fault) {
  const meaning = meanings.proof[fault] ?? meanings.binding[fault] ?? meanings.token[fault];
  const message = `the sender of the token doesn't hold its key: ${fault}${meaning === undefined ? '' : ` (${meaning})`}`;
  assert.throws(call, { name: 'NotHeld', fault, message });
  assert.throws(call, fow.TokenRefused);
}

const SEEN = { name: 'NotTaken', fault: 'Seen' };

function testTable() {
  const { rows, validator, proofs } = table();
  let judged = 0;
  for (const row of rows) {
    try {
      validator.validate(row.token ?? '', row.now);
    } catch (error) {
      assert.ok(error instanceof fow.TokenRefused);
      continue; // (there is no access token, or the standard's own, which is none)
    }
    judged++;
    assert.strictEqual(said(() => validator.validate(row.token, { holder: proofOf(row, proofs()), now: row.now })), row.answer, row.name);
  }
  assert.ok(2 * judged > rows.length, `${judged} of ${rows.length}`);
}

function testOnce() {
  const { good, validator, proofs } = table(), memory = new fow.Once(2, { share: 2, opened: 0 }), now = good.now;
  assert.strictEqual(validator.validate(good.token, { holder: proofOf(good, proofs(memory)), now }).sub, 'user');
  assert.throws(() => validator.validate(good.token, { holder: proofOf(good, proofs(memory)), now: now + 1 }), SEEN);
  const text = JSON.parse(validator.validateText(good.token, { holder: proofOf(good, proofs()), now: BigInt(now) }));
  assert.strictEqual(text.sub, 'user');
  // (a token that was taken leaves no room)
  const full = new fow.Once(1, { share: 1, opened: 0 }), taking = new fow.Validator({ algs: ['HS256'] }, SECRET, { once: full });
  taking.validate(taking.issue({ jti: 'a', exp: now + 100 }), now);
  assert.throws(() => validator.validate(good.token, { holder: proofOf(good, proofs(full)), now }), { name: 'NotTaken', fault: 'Full' });
}

/** A proof is taken behind all else, and a token whose proof is refused isn't. */
function testLast() {
  const { good, validator, proofs } = table(), holder = proofOf(good, proofs()), now = good.now;
  assert.throws(() => validator.validate(good.token, { holder, now, expected: { sub: 'nobody' } }), fow.NotExpected);
  assert.throws(() => validator.validate(good.token, { holder, now, access: new fow.Access({ scopes: ['read'] }) }), fow.Denied);
  assert.throws(() => validator.validate(`${good.token}A`, { holder, now }), fow.SignatureRefused);
  notHeld(() => validator.validate(good.token, { holder: proofOf({ ...good, method: 'get' }, proofs()), now }), 'OtherMethod');
  assert.strictEqual(validator.validate(good.token, { holder, now, expected: { sub: 'user' }, access: new fow.Access({}) }).sub, 'user');
  assert.throws(() => validator.validate(good.token, { holder, now }), SEEN);
}

const SECRET = { keys: [{ kty: 'oct', k: Buffer.alloc(32).toString('base64url') }] };
const base64url = (octets) => Buffer.from(octets).toString('base64url');

/** A key of a client, or of an issuer. */
function newKey() {
  const { privateKey, publicKey } = crypto.generateKeyPairSync('ec', { namedCurve: 'P-256' });
  const { crv, kty, x, y } = publicKey.export({ format: 'jwk' }), jwk = { crv, kty, x, y };
  const thumbprint = crypto.createHash('sha256').update(JSON.stringify(jwk)).digest('base64url');
  const sign = (header, claims) => {
    const signed = [header, claims].map((it) => base64url(JSON.stringify(it))).join('.');
    return `${signed}.${base64url(crypto.sign('sha256', Buffer.from(signed), { key: privateKey, dsaEncoding: 'ieee-p1363' }))}`;
  };
  const proof = (token, iat, more = {}) => {
    const ath = crypto.createHash('sha256').update(token).digest('base64url');
    return sign({ typ: 'dpop+jwt', alg: 'ES256', jwk }, { jti: crypto.randomUUID(), htm: 'GET', htu: THINGS, iat, ath, ...more });
  };
  return { jwk, thumbprint, sign, proof };
}

function testTokensThatCountOnce() {
  const { policy, good } = table(), memory = new fow.Once(4, { share: 4, opened: 0 }), client = newKey(), now = good.now;
  const validator = new fow.Validator({ algs: ['HS256'] }, SECRET, { once: memory }), proofs = new fow.Proofs(policy, memory);
  const token = validator.issue({ jti: 'a', exp: now + 100, cnf: { jkt: client.thumbprint } });
  const show = (method) => validator.validate(token, { holder: new fow.Proof(proofs, { dpop: client.proof(token, now), method, uri: THINGS }), now });
  notHeld(() => show('PUT'), 'OtherMethod');
  assert.strictEqual(show('GET').jti, 'a');
  assert.throws(() => show('GET'), SEEN);
}

function testNonces() {
  const { good, validator, proofs } = table(), client = newKey(), by = proofs(new fow.Once(4, { share: 4, opened: 0 })), now = good.now;
  const token = validator.issue({ cnf: { jkt: client.thumbprint } }), dpop = client.proof(token, now, { nonce: 'n-1' });
  const show = (request) => validator.validate(token, { holder: new fow.Proof(by, { dpop, method: 'GET', uri: THINGS, ...request }), now });
  for (const nonce of ['n-2', 'n-', '\ud800', new Uint8Array(1)]) notHeld(() => show({ nonce }), 'OtherNonce');
  notHeld(() => show({ nonce: 'n-1', dpop: client.proof(token, now) }), 'OtherNonce');
  show({ nonce: 'n-1' });
  show({ nonce: new TextEncoder().encode('n-1'), dpop: client.proof(token, now, { nonce: 'n-1' }), uri: new TextEncoder().encode(`${THINGS}?page=2#end`) });
  show({ dpop: client.proof(token, now) });
}

function testUnbound() {
  const { good, validator } = table(), now = good.now, holder = fow.UNBOUND;
  assert.strictEqual(validator.validate(good.token, now).sub, 'user');
  for (const bound of [good.token, validator.issue({ cnf: {} }), validator.issue({ cnf: null }), validator.issue({ cnf: 'a' })]) {
    notHeld(() => validator.validate(bound, { holder, now }), 'Bound');
  }
  assert.deepStrictEqual({ ...validator.validate(validator.issue({ sub: 'user' }), { holder }) }, { sub: 'user' });
}

function testCertificates() {
  const { good, validator } = table(), der = Buffer.from('a certificate'), digest = crypto.createHash('sha256').update(der).digest('base64url');
  const token = validator.issue({ sub: 'user', cnf: { 'x5t#S256': digest } }), given = Buffer.from(der), copied = new fow.Certificate(given);
  given.fill(0);
  for (const holder of [new fow.Certificate(der), copied]) assert.strictEqual(validator.validate(token, { holder }).sub, 'user');
  for (const [bound, other] of [[token, Buffer.from('a certificate.')], [token, Buffer.alloc(0)], [validator.issue({ sub: 'user' }), der]]) {
    notHeld(() => validator.validate(bound, { holder: new fow.Certificate(other) }), 'OtherCertificate');
  }
  const both = validator.issue({ cnf: { jkt: 'a', 'x5t#S256': digest } });
  for (const bound of [good.token, both]) notHeld(() => validator.validate(bound, { holder: new fow.Certificate(der) }), 'OtherKey');
  notHeld(() => validator.validate(validator.issue({ cnf: {} }), { holder: new fow.Certificate(der) }), 'Unknown');
}

/** Serves a key set while this is done, and says how often it was asked. */
async function serving(keys, call) {
  let count = 0;
  const server = http.createServer((_, response) => response.end(keys, () => count++)).listen(0, '127.0.0.1');
  await once(server, 'listening');
  try {
    await call(`http://127.0.0.1:${server.address().port}/keys`);
  } finally {
    server.close();
  }
  return count;
}

/** The tokens of a profile, by one validator, by keys by URL and by several issuers. */
async function testProfile() {
  const { RemoteKeys } = require('../remote.js'), { Issuers } = require('../issuers.js');
  const [policy, keys] = ['policy', 'keys'].map((it) => fs.readFileSync(path.join(FAPI, `${it}.json`)));
  const rows = fs.readFileSync(path.join(FAPI, 'steps.tsv'), 'utf8').trim().split('\n').map((line) => line.split('\t')).filter((it) => it[2].startsWith('who holds'));
  assert.strictEqual(rows.length, 2);
  await serving(keys, async (url) => {
    const validator = new fow.Validator(policy, keys), remote = await RemoteKeys.open(policy, url, { allowHttp: true });
    const issuers = new Issuers({ [remote.issuer]: remote });
    for (const [, , , name, answer] of rows) {
      const token = fs.readFileSync(path.join(FAPI, `tokens/${name}.jwt`)), fault = answer.slice('not held '.length);
      const holder = name.includes('certificate') ? new fow.Certificate(Buffer.from('another certificate')) : fow.UNBOUND;
      notHeld(() => validator.validate(token, { holder, now: NOW }), fault);
      for (const it of [remote, issuers]) await assert.rejects(it.validate(token, { holder, now: NOW }), { name: 'NotHeld', fault });
    }
    remote.close();
  });
}

/** Keys by URL ask for proofs, and fetch no keys for the sake of one. */
async function testByUrl() {
  const { RemoteKeys } = require('../remote.js'), { policy } = table(), issuer = newKey(), client = newKey();
  const token = issuer.sign({ alg: 'ES256' }, { sub: 'user', cnf: { jkt: client.thumbprint } }), proofs = new fow.Proofs(policy, new fow.Once(2, { opened: 0 })), dpop = client.proof(token, NOW);
  const count = await serving(JSON.stringify({ keys: [issuer.jwk] }), async (url) => {
    const keys = await RemoteKeys.open({ algs: ['ES256'] }, url, { allowHttp: true });
    const show = (it) => keys.validate(token, { holder: new fow.Proof(proofs, { dpop: it, method: 'GET', uri: THINGS }), now: NOW });
    const at = dpop.lastIndexOf('.') + 1, changed = dpop.slice(0, at) + (dpop[at] === 'A' ? 'B' : 'A') + dpop.slice(at + 1);
    await assert.rejects(show(changed), { name: 'NotHeld', fault: 'BadSignature' });
    assert.strictEqual((await show(dpop)).sub, 'user');
    await assert.rejects(show(dpop), SEEN);
    await assert.rejects(show(issuer.proof(token, NOW)), { name: 'NotHeld', fault: 'OtherKey' });
    keys.close();
  });
  assert.strictEqual(count, 1);
}

function testPolicies() {
  const { policy } = table();
  for (const [change, fault, member] of [
    [{ typ: 'at+jwt' }, 'Typ'], [{ algs: ['ES256', 'HS256'] }, 'SharedSecret'], [{ required: ['jti'] }, 'Required'], [{ more: 1 }, 'Member', 'more'],
  ]) {
    const what = meanings.proof[fault] ?? meanings.policy[fault], message = `the policy is refused: ${fault} (${what})${member === undefined ? '' : `: "${member}"`}`;
    assert.throws(() => new fow.Proofs({ ...policy, ...change }, 1), { name: 'PolicyRefused', fault, member, message });
  }
  assert.throws(() => new fow.Proofs('', 1), { name: 'PolicyRefused', fault: 'Json' });
  for (const it of [undefined, null, '1', 1n, {}, fow.Once, true]) assert.throws(() => new fow.Proofs(policy, it), TypeError);
  for (const it of [0, -1, 0.5, NaN, 2 ** 32]) assert.throws(() => new fow.Proofs(policy, it), RangeError);
  assert.throws(() => new fow.Proofs(policy), TypeError);
  assert.throws(() => new fow.Proofs(policy, 1, { nonce: 'n' }), TypeError);
}

/** Nothing is left out by mistake. */
function testMistakes() {
  const { good, validator, proofs } = table(), by = proofs(), now = good.now, request = { dpop: good.proof, method: good.method, uri: good.uri };
  const holders = [undefined, null, 7, 'UNBOUND', {}, [], good.proof, by, fow.Proof, fow.Certificate, Object.create(fow.Proof.prototype), Object.create(fow.UNBOUND)];
  for (const holder of holders) {
    assert.throws(() => validator.validate(good.token, { holder, now }), TypeError);
    assert.throws(() => validator.validate(good.token, { holder, now, access: new fow.Access({}), expected: {} }), TypeError);
  }
  assert.throws(() => validator.validate(good.token, { holdr: fow.UNBOUND, now }), TypeError);
  assert.throws(() => validator.validate(good.token, now, { holder: fow.UNBOUND }), TypeError);
  for (const name of ['dpop', 'method', 'uri', 'nonce']) {
    for (const it of [undefined, null, 7, ['a'], {}, new Uint16Array(1), new ArrayBuffer(1)]) assert.throws(() => new fow.Proof(by, { ...request, [name]: it }), TypeError);
  }
  for (const name of ['dpop', 'method', 'uri']) {
    const { [name]: _, ...rest } = request;
    assert.throws(() => new fow.Proof(by, rest), TypeError);
  }
  for (const nonce of ['', new Uint8Array(0)]) assert.throws(() => new fow.Proof(by, { ...request, nonce }), RangeError);
  for (const it of [undefined, null, 'a', Object.create(request), [request], { ...request, other: 1 }, { ...request, [Symbol('a')]: 1 }]) {
    assert.throws(() => new fow.Proof(by, it), TypeError);
  }
  for (const it of [undefined, null, {}, validator, fow.Proofs, Object.create(fow.Proofs.prototype)]) assert.throws(() => new fow.Proof(it, request), TypeError);
  for (const it of [undefined, null, 'a certificate', [1], new Uint16Array(1), new ArrayBuffer(1)]) assert.throws(() => new fow.Certificate(it), TypeError);
  assert.strictEqual(validator.validate(good.token, { holder: new fow.Proof(by, { __proto__: null, ...request }), now }).sub, 'user');
}

/** What a careless merge has left in Object.prototype decides nothing. */
function testPlanted() {
  const { good, validator, proofs } = table(), now = good.now, before = { ...Object.prototype };
  Object.assign(Object.prototype, { nonce: 'planted', holder: fow.UNBOUND, take: 'planted' });
  try {
    assert.strictEqual(validator.validate(good.token, { holder: proofOf(good, proofs()), now }).sub, 'user');
    assert.strictEqual(validator.validate(good.token, now).sub, 'user');
    assert.strictEqual(validator.validate(good.token, { expected: { sub: 'user' }, now }).sub, 'user');
  } finally {
    for (const name of ['nonce', 'holder', 'take']) delete Object.prototype[name];
    Object.assign(Object.prototype, before);
  }
}

function testClosing() {
  const { good, validator, proofs } = table(), memory = new fow.Once(2, { share: 2, opened: 0 }), by = proofs(memory), holder = proofOf(good, by), now = good.now;
  for (let n = 0; n < 2; n++) by.close();
  assert.throws(() => validator.validate(good.token, { holder, now }), fow.Closed);
  const other = proofOf(good, proofs(memory));
  memory.close();
  assert.throws(() => validator.validate(good.token, { holder: other, now }), fow.Closed);
}

async function testFreeing() {
  const { policy } = table(), memory = new fow.Once(1, { share: 1, opened: 0 }), before = process.memoryUsage().rss;
  for (let n = 0; n < 20000; n++) {
    new fow.Proofs(policy, memory);
    if (n % 100 === 0) await new Promise((done) => setImmediate(done));
  }
  assert.ok(process.memoryUsage().rss < before + 300e6, `${process.memoryUsage().rss}`);
}

/** Shows the good proof many times, and says how often it is taken, and refuses another as often. */
function showMany() {
  const { good, validator, proofs } = table(), by = proofs(new fow.Once(2, { share: 2, opened: 0 }));
  let held = 0;
  for (let n = 0; n < 50; n++) {
    notHeld(() => validator.validate(good.token, { holder: proofOf({ ...good, uri: 'https://a/' }, by), now: good.now }), 'OtherUri');
    try {
      validator.validate(good.token, { holder: proofOf(good, by), now: good.now });
      held++;
    } catch (error) {
      assert.ok(error instanceof fow.NotTaken);
    }
  }
  return held;
}

/** Each worker has a policy, and a memory, of its own. */
async function testWorkers() {
  const workers = Array.from({ length: 4 }, () => new Worker(__filename));
  const answers = await Promise.all(workers.map(async (it) => (await once(it, 'message'))[0]));
  assert.deepStrictEqual(answers, [1, 1, 1, 1]);
}

/** The secret of the row nonce-by-time, or one of another length. */
const secretOf = (length = 32) => Uint8Array.from({ length }, (_, at) => at);

/** The nonce of a period, by Node's own HMAC. */
function nonceOf(number) {
  const octets = Buffer.alloc(8);
  octets.writeBigUInt64BE(BigInt(number));
  return crypto.createHmac('sha256', secretOf()).update(octets).digest('base64url');
}

function testNoncesByTime() {
  const nonces = new fow.Nonces(secretOf(), 300);
  for (const [moment, number] of [[-1, 0], [0, 0], [299, 0], [300, 1], [1700000000, 5666666], [1700000000n, 5666666]]) assert.strictEqual(nonces.at(moment), nonceOf(number));
  assert.ok([nonceOf(Math.floor(Date.now() / 300000)), nonceOf(Math.floor(Date.now() / 300000) - 1)].includes(nonces.at()));
  for (const [secret, period] of [[secretOf(31), 60], [secretOf(), 0], [secretOf(), 2 ** 32], [secretOf(), -1], [secretOf(), 1.5]]) assert.throws(() => new fow.Nonces(secret, period), RangeError);
  for (const secret of [undefined, null, 'a'.repeat(32), {}, new Uint16Array(32)]) assert.throws(() => new fow.Nonces(secret), TypeError);
  assert.throws(() => new fow.Nonces(secretOf(), 60, 60), TypeError);
}

function testProofsWithNonces() {
  const { rows, validator, proofs } = table(), row = rows.find(({ name }) => name === 'nonce-by-time');
  const call = ({ proof: dpop, method, uri, token, now }, nonces) => () => validator.validate(token, { holder: new fow.Proof(proofs(), { dpop, method, uri, nonces }), now });
  call(row, new fow.Nonces(secretOf(), 300))();
  notHeld(call(row, new fow.Nonces(secretOf(33), 300)), 'OtherNonce');
  notHeld(call(rows[0], new fow.Nonces(secretOf(), 300)), 'OtherNonce');
  notHeld(call({ ...row, method: 'POST' }, new fow.Nonces(secretOf(33), 300)), 'OtherMethod');
  for (const nonces of [undefined, null, {}, secretOf(), fow.Nonces]) assert.throws(call(row, nonces), TypeError);
  assert.throws(() => new fow.Proof(proofs(), { dpop: 'a', method: 'GET', uri: THINGS, nonce: 'n', nonces: new fow.Nonces(secretOf()) }), TypeError);
}

/** Where the library can't say whether a nonce is one of these, the proof isn't refused for it: nothing is said of it. */
function testNonceThatIsntAnswered() {
  const { rows, validator, proofs } = table(), { proof: dpop, method, uri, token, now } = rows.find(({ name }) => name === 'nonce-by-time'), { proofFresh } = fow.native;
  const holder = new fow.Proof(proofs(), { dpop, method, uri, nonces: new fow.Nonces(secretOf(), 300) });
  fow.native.proofFresh = () => 3;
  try {
    assert.throws(() => validator.validate(token, { holder, now }), (error) => !(error instanceof fow.FowharimuError));
  } finally {
    fow.native.proofFresh = proofFresh;
  }
  validator.validate(token, { holder, now });
}

/** A guard holds a proof against the path that the client wrote, whatever a router made of it, and whatever a prototype has under its names. */
function testGuardedPaths() {
  const { guard } = require('../guard.js'), { validator, proofs } = table(), client = newKey(), origin = 'https://api.example';
  const token = validator.issue({ cnf: { jkt: client.thumbprint } }), guarding = guard(validator, { dpop: { proofs: proofs(new fow.Once(20, { share: 20, opened: 0 })), origin } });
  const said = (target, path) => {
    const proof = client.proof(token, Math.floor(Date.now() / 1000), { htu: `${origin}${path}` }), response = { setHeader() {}, end() {} };
    const request = { rawHeaders: ['Authorization', `DPoP ${token}`, 'DPoP', proof], headers: {}, method: 'GET', ...target };
    return guarding(request, response, (error) => error ?? 'let in') ?? response.statusCode;
  };
  for (const [target, path] of [
    [{ url: '/a' }, '/a'], [{ url: '/a?b=/c#d' }, '/a'], [{ url: '/b', originalUrl: '/a/b?c' }, '/a/b'],
    [{ url: '/a#b' }, '/a%23b'], [{ url: '*' }, '/*'],
  ]) assert.strictEqual(said(target, path), 'let in', target.url);
  for (const [target, path] of [
    [{ url: '/b', originalUrl: '/a/b' }, '/b'], [{ url: '/a#b' }, '/a'], [{ url: '/a' }, '/planted'],
  ]) assert.strictEqual(said(target, path), 401, target.url);
  for (const url of ['/a%2Fb', '//a', '/a/../b', 'http://evil.example/a']) assert.strictEqual(said({ url }, url), 400, url);
}

/** A guard says of a request that shows no one token, or no one proof, that it doesn't, and asks its validator nothing. */
function testGuardWithoutToken() {
  const { guard } = require('../guard.js'), { proofs } = table(), dpop = { proofs: proofs(), origin: 'https://api.example' };
  const guarding = guard({ validate: () => assert.fail('nothing is to be judged') }, { dpop });
  const bound = ['Authorization', 'DPoP a.b.c'], proof = ['DPoP', 'a.b.c'];
  for (const [rawHeaders, status] of [[[...bound, ...bound, ...proof], 400], [bound, 401], [[...bound, ...proof, ...proof], 401], [proof, 401], [[], 401], [['Authorization', 'DPoP'], 401]]) {
    const response = { setHeader() {}, end() {} };
    guarding({ rawHeaders, headers: {}, method: 'GET', url: '/' }, response, () => assert.fail('nobody is to be let in'));
    assert.strictEqual(response.statusCode, status);
  }
}

const TESTS = {
  'each proof is answered as the table says': testTable,
  'a proof counts once': testOnce,
  'a proof is taken last': testLast,
  'tokens that count once, with proofs': testTokensThatCountOnce,
  'nonces of proofs': testNonces,
  'nonces by time': testNoncesByTime,
  'proofs with nonces by time': testProofsWithNonces,
  'a nonce of which nothing is said': testNonceThatIsntAnswered,
  'paths of requests behind a guard': testGuardedPaths,
  'requests without one token and one proof': testGuardWithoutToken,
  'bound tokens that come alone': testUnbound,
  'certificates of clients': testCertificates,
  'policies for proofs': testPolicies,
  'nothing is asked of a sender by mistake': testMistakes,
  'what a prototype asks of a sender': testPlanted,
  'closed policies for proofs': testClosing,
  'policies for proofs that are not closed are freed': testFreeing,
  'proofs by URL': testByUrl,
  'workers judge proofs': testWorkers,
};

if (!isMainThread) {
  parentPort.postMessage(showMany());
} else {
  /** Has the tests run; those over the table say so where they are left out, since it isn't there. */
  module.exports = (test) => {
    const skip = !fs.existsSync(TABLE) && `left out, since ${TABLE} isn't here`;
    for (const [name, run] of Object.entries(TESTS)) test(name, { skip }, run);
    test('tokens of a profile are held by another', testProfile);
  };
}
