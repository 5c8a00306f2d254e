'use strict';
const assert = require('node:assert');
const { spawn, spawnSync } = require('node:child_process');
const crypto = require('node:crypto');
const { once } = require('node:events');
const fs = require('node:fs');
const http = require('node:http');
const net = require('node:net');
const path = require('node:path');
const test = require('node:test');
const { Worker, isMainThread, workerData, parentPort } = require('node:worker_threads');
const fow = require('..');
const meanings = require('../meanings.js');

const TOP = process.env.FOWHARIMU_TOP ?? path.resolve(__dirname, '../../..');
const NOW = 1300819379;
const HMAC = path.join(TOP, 'examples/rfc7515-a1');
const RSA = path.join(TOP, 'tests/tokens/RS256');
const read = (name, end) => fs.readFileSync(`${name}.${end}`);
const validatorOf = (name) => new fow.Validator(read(name, 'policy'), read(name, 'keys'));
const tokenOf = (name) => read(name, 'jwt').toString();
const namesIn = (folder) =>
  fs.readdirSync(path.join(TOP, folder)).filter((it) => it.endsWith('.jwt')).map((it) => path.join(TOP, folder, it.slice(0, -4)));
/** The name of a token whose signature the proved verifiers don't verify. */
const isUnverified = (name) => path.basename(name) === 'Ed448';

/** The token with another first character of its signature. */
function changed(token) {
  const at = token.lastIndexOf('.') + 1;
  return token.slice(0, at) + (token[at] === 'A' ? 'B' : 'A') + token.slice(at + 1);
}

function judgeMany(name) {
  const validator = validatorOf(name);
  let accepted = 0;
  for (let n = 0; n < 200; n++) accepted += validator.judge(tokenOf(name), NOW).accepted;
  return accepted;
}

function testEachToken() {
  const names = ['examples', 'tests/tokens'].flatMap(namesIn);
  assert.ok(names.length >= 15);
  for (const name of names.filter((it) => !isUnverified(it))) {
    const validator = validatorOf(name), token = tokenOf(name);
    if (path.basename(name) === 'rfc8037-a4') assert.throws(() => validator.validate(token, NOW), fow.ClaimsRefused);
    else for (const it of [token, Buffer.from(token)]) assert.strictEqual(validator.validate(it, NOW).iss, 'joe', name);
    assert.throws(() => validator.validate(changed(token), NOW), { name: 'SignatureRefused', fault: 'BadSignature', signature: 0 });
    validator.close();
  }
}

function testEd448() {
  const name = path.join(TOP, 'tests/tokens/Ed448');
  assert.throws(() => validatorOf(name).validate(tokenOf(name), NOW), { name: 'SignatureRefused', fault: 'BadSignature' });
}

const SECRET = '{"keys":[{"kty":"oct","k":"AAAAAAAAAAAAAAAAAAAAAAAAAAAAAAAAAAAAAAAAAAA"}]}';

function testTerms() {
  const none = '{"keys":[]}', long = 'é'.repeat(20_000);
  for (const [policy, keys, ...told] of [
    [{ algs: ['RS256'] }, none, undefined, 8192, true],
    [{ algs: ['RS256'], issuers: ['a', 'b'], limit: 7 }, none, undefined, 7, true],
    [{ algs: ['RS256'], issuers: [long] }, none, long, 8192, true],
    [{ algs: ['RS256'], issuers: [''] }, SECRET, '', 8192, false],
    [{ algs: ['RS256', 'HS512'] }, none, undefined, 8192, false],
  ]) {
    const { issuer, limit, isPublic } = new fow.Validator(policy, keys);
    assert.deepStrictEqual([issuer, limit, isPublic], told);
  }
  assert.strictEqual(fow.textMember('{"a":"\\u00e9"}', 'a'), 'é');
  for (const document of ['{}', '{"a":5}', '{"a":"x","a":"x"}', '']) assert.strictEqual(fow.textMember(document, 'a'), undefined);
  assert.throws(() => fow.textMember(5, 'a'), TypeError);
}

async function testIssuers() {
  const { Issuers } = require('../issuers.js');
  const open = (issuer, limit) => new fow.Validator({ algs: ['HS256'], issuers: [issuer], limit }, SECRET);
  const one = open('a', 400), other = open('b', 300), issuers = new Issuers({ a: one, b: other });
  for (const iss of ['a', 'b']) {
    const token = one.issue({ iss });
    assert.deepStrictEqual(await issuers.validate(token), { iss });
    assert.ok((await issuers.judge(Buffer.from(token), NOW)).accepted);
    await assert.rejects(issuers.validate(token, { access: new fow.Access({ scopes: ['read'] }) }), fow.Denied);
  }
  for (const [token, fault] of [[one.issue({ iss: 'c' }), 'Issuer'], ['x', 'Segments'], ['x'.repeat(301), 'TooLong']]) {
    await assert.rejects(issuers.validate(token), { fault });
    assert.strictEqual((await issuers.judge(token)).refusal.fault, fault);
  }
  for (const it of [{}, { a: other }, { a: one, c: other }, { a: { issuer: 'a', limit: 1 } }]) assert.throws(() => new Issuers(it), TypeError);
  assert.deepStrictEqual([one.issue({ iss: 'é' }), one.issue({}), 'x'].map((it) => one.unverifiedIssuer(it)), ['é', null, undefined]);
  await new Issuers(new Map([['a', one]])).validate(one.issue({ iss: 'a' }));
  const token = one.issue({ iss: 'b' });
  for (let n = 0; n < 2; n++) {
    issuers.close();
    await assert.rejects(issuers.validate(token), fow.Closed);
    assert.throws(() => other.unverifiedIssuer(token), fow.Closed);
  }
}

/** Keys by URL promise the claims by the language's own Promise, also where a library puts another one under its name. */
async function testGuardUnderAnotherPromise() {
  const { guard } = require('../guard.js'), own = globalThis.Promise;
  const validate = async (token) => {
    if (token === 'good') return { sub: 'ann' };
    throw new fow.SignatureRefused('', { fault: 'BadSignature' });
  };
  const guarding = guard({ validate });
  const ask = (token) => new Promise((answered) => {
    const request = { rawHeaders: ['Authorization', `Bearer ${token}`], headers: {} };
    guarding(request, { setHeader() {}, end() { answered(this.statusCode); } }, (error) => answered(error ?? request.auth));
  });
  globalThis.Promise = class extends own {};
  try {
    assert.deepStrictEqual([await ask('good'), await ask('forged')], [{ sub: 'ann' }, 401]);
  } finally {
    globalThis.Promise = own;
  }
}

/** Has a test ask a server on the loopback for the keys of RS256, by a URL. */
async function withKeysAt(tried) {
  const server = http.createServer((_, response) => response.end(read(RSA, 'keys'))).listen(0, '127.0.0.1');
  await once(server, 'listening');
  try {
    await tried(`http://127.0.0.1:${server.address().port}/keys`);
  } finally {
    server.close();
  }
}

/** A policy that changes once it was handed over: new keys are judged by what it was. */
const testKeptPolicy = () => withKeysAt(async (url) => {
  const { RemoteKeys } = require('../remote.js'), text = JSON.stringify({ algs: ['RS256'], issuers: ['joe'] });
  for (const [policy, change] of [
    [JSON.parse(text), (it) => (it.issuers = ['eve'])],
    [Buffer.from(text), (it) => it.write('eve', text.indexOf('joe'))],
    [new Uint8Array(Buffer.from(text)), (it) => it.fill(0)],
    [text, () => {}],
  ]) {
    const opening = RemoteKeys.open(policy, url, { allowHttp: true });
    change(policy);
    const keys = await opening;
    assert.ok(await keys.refresh());
    assert.deepStrictEqual([keys.issuer, (await keys.validate(tokenOf(RSA), NOW)).iss], ['joe', 'joe']);
    keys.close();
  }
  for (const policy of [new Uint16Array(9), new ArrayBuffer(9), undefined]) await assert.rejects(RemoteKeys.open(policy, url), TypeError);
});

/** Times that are no times: keys that never grow too old would be what came of them. */
const testTimes = () => withKeysAt(async (url) => {
  const { KeysTooOld, RemoteKeys } = require('../remote.js'), policy = { algs: ['RS256'], issuers: ['joe'] };
  const wrong = ['refreshAfter', 'cooldown', 'maxAge', 'timeout'].flatMap((name) => [NaN, -1, '60', {}].map((it) => ({ [name]: it })));
  for (const options of [...wrong, { timeout: Infinity }, { timeout: 2 ** 31 }]) {
    for (const open of [RemoteKeys.open, RemoteKeys.discover]) await assert.rejects(open(policy, url, { allowHttp: true, ...options }), RangeError);
  }
  const absent = { refreshAfter: undefined, cooldown: null, maxAge: undefined, timeout: undefined, allowHttp: true };
  for (const [options, isOld] of [[absent, false], [{ refreshAfter: 0, maxAge: 0 }, true], [{ maxAge: Infinity, timeout: 2 ** 31 - 1.5 }, false]]) {
    const keys = await RemoteKeys.open(policy, url, { allowHttp: true, ...options });
    if (isOld) await assert.rejects(keys.validate(tokenOf(RSA), NOW), KeysTooOld);
    else assert.strictEqual((await keys.validate(tokenOf(RSA), NOW)).iss, 'joe');
    keys.close();
  }
});

/** What a query hides is told nowhere: not in the errors of URLs, nor in those of fetches. */
async function testQueries() {
  const { inspect } = require('node:util'), { RemoteKeys } = require('../remote.js'), told = [];
  const server = http.createServer((_, response) => response.writeHead(302, { location: 'https://[' }).end()).listen(0, '127.0.0.1');
  await once(server, 'listening');
  const onFetch = (...them) => told.push(them);
  for (const at of [`http://127.0.0.1:${server.address().port}`, 'http://127.0.0.1:1', 'https://[', 'https://a:x']) {
    await RemoteKeys.open({ algs: ['RS256'] }, `${at}/keys?api_key=secret`, { allowHttp: true, onFetch }).catch((error) => told.push(error));
  }
  server.close();
  assert.strictEqual(told.length, 6);
  assert.ok(!inspect(told, { depth: 9 }).includes('secret'), inspect(told, { depth: 9 }));
}

/** A guard that would ask for no rule, for a misspelled name or a rule that isn't there, isn't made. */
function testGuardWords() {
  const { guard } = require('../guard.js'), validator = validatorOf(HMAC), access = new fow.Access({});
  for (const how of [{ access: undefined }, { acces: access }, { access: {} }, { access, hideToken: true }, access]) {
    assert.throws(() => guard(validator, how), TypeError);
  }
  for (const how of [{ realm: 7 }, { hidesToken: 'no' }, { onRefusal: [] }, null, [], Object.create({ access })]) {
    assert.throws(() => guard(validator, how), TypeError);
  }
  for (const how of [undefined, {}, { access, realm: 'a', hidesToken: true, onRefusal() {} }]) assert.strictEqual(typeof guard(validator, how), 'function');
}

/** Options are read as they stand in a plain object: no name that isn't known, no member of a prototype, no other kind than theirs. */
async function testOptions() {
  const { RemoteKeys } = require('../remote.js'), policy = { algs: ['RS256'] }, keys = { keys: [] };
  const validator = validatorOf(HMAC), token = tokenOf(HMAC), access = new fow.Access({}), remember = { tokens: 1, octets: 4096 };
  const calls = [
    [(how) => new fow.Validator(policy, keys, how), { remember }],
    [(how) => new fow.Validator(policy, keys, { remember: how }), remember],
    [(how) => validator.validate(token, how), { access, now: NOW }],
    [(how) => validator.issue({}, how), { alg: 'HS256', form: 'compact', key: 0, typ: 'at+jwt' }],
  ];
  class Derived {}
  // (an option that a class has for all that are made of it)
  Derived.prototype.remember = remember;
  for (const [call, how] of calls) {
    for (const it of [how, { __proto__: null, ...how }]) call(it);
    const hidden = Object.defineProperty({ ...how }, 'hidden', { value: 1 });
    for (const it of [{ ...how, other: 1 }, { ...how, [Symbol('a')]: 1 }, hidden, Object.create(how), [how], Object.assign(new Derived(), how)]) {
      assert.throws(() => call(it), TypeError);
    }
  }
  const url = 'http://127.0.0.1:1/keys', wrong = [{ maxage: 1 }, Object.create({ allowHttp: true }), null, { allowHttp: 1 }, { onFetch: {} }, { remember: 7 }];
  for (const how of [...wrong, { ca: '' }, { ca: [] }, { ca: null }]) {
    for (const open of [RemoteKeys.open, RemoteKeys.discover]) await assert.rejects(open(policy, url, how), TypeError);
  }
}

/** The library is the one that the environment names, and none that a prototype does. */
function testPlantedLibrary() {
  const script = `Object.prototype.FOWHARIMU_NODE = '/planted'; require(${JSON.stringify(path.resolve(__dirname, '..'))})`;
  const { FOWHARIMU_NODE, ...env } = process.env, done = spawnSync(process.execPath, ['-e', script], { env });
  assert.ok(!done.stderr.includes("'/planted'"), `${done.stderr}`);
}

/** Answers by what a socket is sent, over a server on the loopback whose URL is handed on. */
async function withServer(answer, tried) {
  const sockets = new Set();
  const server = net.createServer((socket) => {
    sockets.add(socket.on('error', () => {}));
    socket.once('data', () => answer(socket));
  }).listen(0, '127.0.0.1');
  await once(server, 'listening');
  try {
    await tried(`http://127.0.0.1:${server.address().port}/keys`);
  } finally {
    for (const it of sockets) it.destroy();
    server.close();
  }
}

const SWITCHING = 'HTTP/1.1 101 Switching Protocols\r\nConnection: Upgrade\r\nUpgrade: other\r\n\r\n';

/** A fetch is over at its deadline, also one of which Node's client says nothing more: a process that has nothing else to do is told so. */
const testNoAnswer = () => withServer((socket) => socket.write(SWITCHING), async (url) => {
  const script = `require(${JSON.stringify(path.resolve(__dirname, '../remote.js'))}).RemoteKeys
    .open({ algs: ['RS256'] }, ${JSON.stringify(url)}, { allowHttp: true, timeout: 500 }).catch((error) => console.log(error.name))`;
  const child = spawn(process.execPath, ['-e', script], { stdio: ['ignore', 'pipe', 'inherit'] }), said = [];
  child.stdout.on('data', (it) => said.push(it));
  assert.deepStrictEqual([...(await once(child, 'close')), String(Buffer.concat(said))], [0, null, 'KeysUnavailable\n']);
});

/** Of tokens for which a key is lacking at most four wait for a fetch, one for each `kid`. The others are refused at once. */
async function testFewWait() {
  const { RemoteKeys } = require('../remote.js'), keys = read(RSA, 'keys'), answered = [];
  let fetches = 0;
  const answer = (socket) => fetches++ === 0 && socket.end(`HTTP/1.1 200 OK\r\nContent-Length: ${keys.length}\r\n\r\n${keys}`);
  await withServer(answer, async (url) => {
    const remote = await RemoteKeys.open({ algs: ['RS256'] }, url, { allowHttp: true, timeout: 1000, cooldown: 0 }), token = tokenOf(RSA);
    const ask = (it, name) => remote.validate(it, NOW).then(() => answered.push(name), (error) => answered.push(error.fault));
    const header = (kid) => Buffer.from(JSON.stringify({ alg: 'RS256', kid })).toString('base64url');
    const forged = ['a', 'a', 'b', 'c', 'd', 'e', 'f'].map((kid) => `${header(kid)}.${token.split('.')[1]}.AAAA`);
    const all = Promise.all([...forged, changed(token)].map((it) => ask(it)));
    await ask(token, 'accepted');
    // (a second one of a kid, a fifth kid and a sixth, and one without any)
    assert.deepStrictEqual(answered, ['NoKey', 'NoKey', 'NoKey', 'BadSignature', 'accepted']);
    await all;
    assert.deepStrictEqual([answered.length, fetches], [9, 2]);
    remote.close();
  });
}

/** A call that begins while keys are exchanged is judged by those that are there then. */
const testExchange = () => withKeysAt(async (url) => {
  const { RemoteKeys } = require('../remote.js'), keys = await RemoteKeys.open({ algs: ['RS256'] }, url, { allowHttp: true }), token = tokenOf(RSA);
  const { concat } = Buffer, calls = [];
  const call = (count) => {
    calls.push(keys.validate(token, NOW));
    if (count > 0) queueMicrotask(() => call(count - 1));
  };
  // (what came is put together some steps before the exchange: a call begins in each of these)
  Buffer.concat = (...them) => {
    call(30);
    return concat.apply(Buffer, them);
  };
  try {
    assert.ok(await keys.refresh());
  } finally {
    Buffer.concat = concat;
  }
  await new Promise(setImmediate);
  assert.ok(calls.length > 10);
  for (const claims of await Promise.all(calls)) assert.strictEqual(claims.iss, 'joe');
  keys.close();
});

/** What stands behind a guard that hides the token finds it nowhere, also where the headers were read before. */
async function testHiding() {
  const { guard } = require('../guard.js'), validator = validatorOf(HMAC), guarding = guard(validator, { hidesToken: true });
  const token = validator.issue({ iss: 'joe', exp: Math.floor(Date.now() / 1000) + 60 });
  const server = http.createServer((request, response) => {
    if (request.url === '/read') assert.deepStrictEqual(request.headersDistinct.authorization, [`Bearer ${token}`]);
    guarding(request, response, () => response.end(JSON.stringify([request.headersDistinct, request.headers, request.rawHeaders])));
  }).listen(0, '127.0.0.1');
  await once(server, 'listening');
  try {
    for (const at of ['/', '/read']) {
      const headers = { authorization: `Bearer ${token}`, 'x-other': 'b' };
      const [answer] = await once(http.get({ host: '127.0.0.1', port: server.address().port, path: at, headers, agent: false, timeout: 0 }), 'response');
      const said = String(Buffer.concat(await answer.toArray()));
      assert.ok(!said.includes(token) && !/authorization/i.test(said));
      assert.deepStrictEqual(JSON.parse(said)[0]['x-other'], ['b']);
    }
  } finally {
    server.close();
  }
}

/** Whoever is told of a fetch may throw: that changes no verdict, and is a warning. */
const testToldInVain = () => withKeysAt(async (url) => {
  const { RemoteKeys } = require('../remote.js'), warned = once(process, 'warning');
  const onFetch = () => {
    throw new Error('told in vain');
  };
  const keys = await RemoteKeys.open({ algs: ['RS256'] }, url, { allowHttp: true, onFetch });
  assert.strictEqual((await warned)[0].message, 'told in vain');
  assert.ok((await keys.refresh()) && (await keys.judge(tokenOf(RSA), NOW)).accepted);
  keys.close();
});

/** A planted `timeout` with which Node's own sockets make no connection has a fetch fail at once, and leaves the keys that are held. */
const testPlantedTimeout = () => withKeysAt(async (url) => {
  const keys = await require('../remote.js').RemoteKeys.open({ algs: ['RS256'] }, url, { allowHttp: true, timeout: 1000 });
  for (const value of [1, -1, 'planted', null, {}, true]) {
    Object.defineProperty(Object.prototype, 'timeout', { value, configurable: true });
    const begun = performance.now(), isGood = await keys.refresh(), took = performance.now() - begun;
    delete Object.prototype.timeout;
    assert.ok(!isGood && took < 1500 && (await keys.judge(tokenOf(RSA), NOW)).accepted, `${value}: ${took}`);
  }
  assert.ok(await keys.refresh());
  keys.close();
});

function testReport() {
  const report = validatorOf(HMAC).judge(tokenOf(HMAC), NOW);
  assert.ok(report.accepted);
  assert.deepStrictEqual(report.states, [{ state: 'verified', fault: undefined, key: 0 }]);
  assert.strictEqual(report.tries.length, 1);
  assert.strictEqual(report.work, report.tries[0].cost);
}

function testRemembering() {
  const token = tokenOf(HMAC), documents = [read(HMAC, 'policy'), read(HMAC, 'keys')];
  const rows = [[10, 4096, true], [1, token.length, true], [10, token.length - 1, false], [0, 4096, false]];
  for (const [tokens, octets, is] of rows) {
    const validator = new fow.Validator(...documents, { remember: { tokens, octets } });
    const reports = [0, 0, 1, 0].map((it) => validator.judge(token, NOW + it));
    assert.deepStrictEqual(reports.map((it) => it.remembered), [false, is, is, is]);
    assert.deepStrictEqual(reports.map((it) => it.accepted), [true, true, false, true]);
    for (const it of reports) assert.deepStrictEqual([it.work, it.tries, it.states], [reports[0].work, reports[0].tries, reports[0].states]);
    assert.strictEqual(validator.validate(token, NOW).iss, 'joe');
    assert.throws(() => validator.validate(changed(token), NOW), { name: 'SignatureRefused' });
    validator.close();
  }
  const plain = validatorOf(HMAC);
  assert.deepStrictEqual([0, 0].map((it) => plain.judge(token, NOW + it).remembered), [false, false]);
  for (const remember of [{ tokens: -1, octets: 1 }, { tokens: 1.5, octets: 1 }, { tokens: 1 }, { tokens: 2 ** 32, octets: 1 }]) {
    assert.throws(() => new fow.Validator(...documents, { remember }), RangeError);
  }
}

function testRefusals() {
  const policy = { algs: ['HS256'] }, token = tokenOf(HMAC), keys = read(HMAC, 'keys');
  const refusal = (by, it) => new fow.Validator(by, keys).judge(it, NOW).refusal;
  for (const [by, it, name, fault] of [
    [{ ...policy, limit: 100 }, token, 'TooLong', 'TooLong'],
    [policy, 'a.b', 'FormRefused', 'Segments'],
    [policy, '', 'FormRefused', 'Empty'],
    [policy, '\ud800.\0.é', 'FormRefused', 'Base64'],
    [policy, 'e30.*.AA', 'FormRefused', 'Base64'],
    [{ ...policy, work: 10 }, token, 'CeilingReached', 'WorkExceeded'],
    [{ ...policy, version: 2, max_calls: 0 }, token, 'CeilingReached', 'CallsExceeded'],
    [{ algs: ['HS384'] }, token, 'SignatureRefused', 'AlgNotAllowed'],
    [{ ...policy, required: ['role'] }, token, 'ClaimsRefused', 'ClaimMissing'],
    [{ ...policy, issuers: ['eve'] }, token, 'ClaimsRefused', 'Issuer'],
  ]) {
    const error = refusal(by, it);
    assert.ok(error instanceof fow[name] && error instanceof fow.TokenRefused, `${fault}: ${error}`);
    assert.deepStrictEqual([error.name, error.fault], [name, fault]);
  }
  assert.strictEqual(refusal(policy, 'e30.*.AA').part, 'payload');
  for (const claim of ['role', 'sub', 'röle']) assert.strictEqual(refusal({ ...policy, required: [claim] }, token).claim, claim);
}

/** A surrogate that stands alone isn't taken for another text. */
function testSurrogates() {
  const key = { kty: 'oct', k: 'A'.repeat(43) }, policy = { algs: ['HS256'] }, keys = { keys: [key] };
  const validator = new fow.Validator(policy, keys);
  for (const text of ['é€\u{1f600}', '\ufffd', '\ufffd\ufffd']) {
    assert.strictEqual(validator.validate(validator.issue(`{"iss":"${text}"}`), NOW).iss, text);
  }
  for (const text of ['\ud800', '\udc00\ud800', 'é\ud800€', '\ufffd\ud800']) {
    assert.throws(() => validator.issue(`{"iss":"${text}"}`), { name: 'IssueRefused', fault: 'ClaimsShape' });
    assert.throws(() => new fow.Validator(`{"algs":["HS256"],"issuers":["${text}"]}`, keys), { name: 'PolicyRefused', fault: 'Json' });
  }
  assert.throws(() => validator.issue({}, { typ: '\ud800' }), RangeError);
}

function testDocuments() {
  const keys = { keys: [] };
  assert.throws(() => new fow.Validator({ algs: ['HS256'], audience: 'me' }, keys), { name: 'PolicyRefused', fault: 'Member', member: 'audience' });
  assert.throws(() => new fow.Validator({ algs: [] }, keys), { name: 'PolicyRefused', fault: 'NoAlgorithm', member: undefined });
  assert.throws(() => new fow.Validator({ algs: ['HS256'] }, {}), { name: 'KeysRefused', fault: 'NotKeySet' });
}

/** Access rules, over the claims of RFC 7515, appendix A.1: `iss` joe, `exp` and `http://example.com/is_root` true. */
function testGranted() {
  const validator = validatorOf(HMAC), token = tokenOf(HMAC);
  const claims = { iss: ['joe', 'ann'], exp: [NOW + 1], 'http://example.com/is_root': [true] };
  const rule = { scopes: ['joe'], scope_claim: 'iss', claims };
  for (const it of [rule, JSON.stringify(rule), Buffer.from(JSON.stringify(rule)), {}, '{}', Object.assign(Object.create(null), rule)]) {
    const access = new fow.Access(it);
    for (const now of [NOW, BigInt(NOW)]) {
      assert.strictEqual(validator.validate(token, { access, now }).iss, 'joe');
      assert.strictEqual(validator.validateText(token, { access, now }), validator.validateText(token, NOW));
    }
  }
  assert.throws(() => validator.validate(token, { access: new fow.Access({}) }), { fault: 'Expired' });
}

function testDenied() {
  const validator = validatorOf(HMAC), token = tokenOf(HMAC), long = `/${'a'.repeat(5000)}`;
  const scope = undefined, claim = undefined, scopes = [], message = 'the token is denied: ';
  for (const [rule, said, meaning, name] of [
    [{ scopes: ['read', 'write'], claims: { iss: ['ann'] } }, { fault: 'ScopeMissing', scope: 'read', claim, scopes: ['read', 'write'] }, "this scope isn't granted", 'read'],
    [{ scopes: ['joe', 'write'], scope_claim: 'iss' }, { fault: 'ScopeMissing', scope: 'write', claim, scopes: ['joe', 'write'] }, "this scope isn't granted", 'write'],
    [{ claims: { iss: ['ann'], sub: ['x'] } }, { fault: 'ClaimNotAllowed', scope, claim: 'iss', scopes }, 'this claim has no value that is allowed', 'iss'],
    [{ claims: { '': ['x'] } }, { fault: 'ClaimMissing', scope, claim: '', scopes }, 'this claim is absent', ''],
    [{ claims: { röle: ['x'] } }, { fault: 'ClaimMissing', scope, claim: 'röle', scopes }, 'this claim is absent', 'röle'],
    [{ claims: { [long]: [1] } }, { fault: 'ClaimMissing', scope, claim: long, scopes }, 'this claim is absent', long],
  ]) {
    const how = { access: new fow.Access(rule), now: NOW }, error = { name: 'Denied', message: `${message}${said.fault} (${meaning}): "${name}"`, ...said };
    for (const call of ['validate', 'validateText']) assert.throws(() => validator[call](token, how), error);
    assert.deepStrictEqual(how.access.scopes, said.scopes);
  }
  assert.ok(new fow.Denied('') instanceof fow.FowharimuError && !(new fow.Denied('') instanceof fow.TokenRefused));
}

/** A token that isn't accepted is refused, whatever the rule says; and a denial stays with its token. */
function testDenialIsNoRefusal() {
  const validator = validatorOf(HMAC), token = tokenOf(HMAC);
  const [denies, grants] = [{ scopes: ['read'] }, {}].map((it) => new fow.Access(it));
  for (const access of [denies, grants]) {
    assert.throws(() => validator.validate(token, { access, now: NOW + 3600 }), {
      name: 'ClaimsRefused', fault: 'Expired', message: 'the token is refused: Expired (the moment is at or after `exp` and the leeway)',
    });
    assert.throws(() => validator.validate(changed(token), { access, now: NOW }), fow.SignatureRefused);
  }
  assert.throws(() => validator.validate(token, { access: denies, now: NOW }), fow.Denied);
  assert.strictEqual(validator.validate(token, { access: grants, now: NOW }).iss, 'joe');
  assert.strictEqual(validator.validate(token, NOW).iss, 'joe');
  assert.strictEqual(validatorOf(RSA).validate(tokenOf(RSA), { access: grants, now: NOW }).iss, 'joe');
}

function testRefusedRules() {
  for (const [rule, fault, member] of [
    ['', 'Json'],
    [Buffer.from([0xff]), 'Json'],
    ['\ud800', 'Json'],
    [7, 'Json'],
    [null, 'Json'],
    [[], 'Json'],
    ['{"scopes":[],"scopes":[]}', 'NameTwice'],
    [{ scope: 'read' }, 'Member', 'scope'],
    [{ scopes: null }, 'Member', 'scopes'],
    [{ scopes: ['read write'] }, 'Range', 'scopes'],
    [{ claims: { a: [1.5] } }, 'Claim', 'a'],
    [{ claims: { a: [NaN] } }, 'Claim', 'a'],
    [{ claims: { röle: [] } }, 'ClaimRange', 'röle'],
    [{ claims: { '/~2': [1] } }, 'ClaimRange', '/~2'],
    [' '.repeat(65537), 'TooLong'],
  ]) {
    const message = `the access rule is refused: ${fault} (${meanings.access[fault]})${member === undefined ? '' : `: "${member}"`}`;
    assert.throws(() => new fow.Access(rule), { name: 'AccessRefused', message, fault, member });
  }
}

/** What JSON.stringify would leave out, or write as a rule that asks for less, is no rule. */
function testRulesByMistake() {
  const scopes = ['read'];
  for (const it of [
    undefined, 7n, Symbol('a'), () => ({ scopes }), new Uint16Array(2), new ArrayBuffer(2), Promise.resolve({ scopes }), new Map([['scopes', scopes]]),
    new fow.Access({ scopes }), new (class { scopes = scopes; })(), Object.create({ scopes }), { scopes: undefined }, { claims: new Map([['a', [1]]]) },
    { scopes: ['read', undefined] }, { claims: { a: undefined } }, { claims: { a: [() => 1] } }, { claims: { a: [7n] } },
  ]) assert.throws(() => new fow.Access(it), TypeError);
  for (const it of [2 ** 53, -(2 ** 62)]) assert.throws(() => new fow.Access({ claims: { a: [it] } }), RangeError);
}

/** The same of a policy, a key set and claims: one without issuers asks for none. */
function testDocumentsByMistake() {
  const policy = { algs: ['HS256'], issuers: undefined }, keys = { keys: [{ kty: 'oct', k: 'AAAA', alg: undefined }] };
  for (const it of [[policy, '{"keys":[]}'], [new Map([['algs', ['HS256']]]), '{"keys":[]}'], ['{"algs":["HS256"]}', keys]]) {
    assert.throws(() => new fow.Validator(...it), TypeError);
  }
  const validator = validatorOf(HMAC);
  for (const it of [{ iss: 'joe', exp: undefined }, new Map([['iss', 'joe']]), { aud: ['a', undefined] }]) assert.throws(() => validator.issue(it), TypeError);
  assert.throws(() => validator.issue({ exp: 2 ** 53 }), RangeError);
}

/** A call that is handed no rule where it should be handed one gives no claims. */
function testMistakenRules() {
  const validator = validatorOf(HMAC), token = tokenOf(HMAC), access = new fow.Access({});
  const others = [undefined, null, {}, '{}', true, fow.Access, Object.create(fow.Access.prototype), structuredClone(access), validator];
  const error = { name: 'TypeError', message: 'access has to be an Access' };
  for (const it of others) assert.throws(() => validator.validate(token, { access: it, now: NOW }), error);
  for (const how of [{}, { now: NOW }]) assert.throws(() => validator.validate(token, how), error);
  for (const how of [{ acess: access, now: NOW }, access, [access], new Date(0)]) assert.throws(() => validator.validate(token, how), TypeError);
  for (const now of [1.5, NaN, null, `${NOW}`, { now: NOW }]) assert.throws(() => validator.validate(token, { access, now }), RangeError);
  assert.throws(() => validator.judge(token, { access, now: NOW }), RangeError);
  for (const call of ['validate', 'validateText', 'judge']) {
    for (const it of [access, undefined]) assert.throws(() => validator[call](token, NOW, it), TypeError);
  }
  assert.throws(() => access.scopes.push('read'), TypeError);
  assert.throws(() => { access.scopes = []; }, TypeError);
  access.close();
  access.close();
  assert.throws(() => validator.validate(token, { access, now: NOW }), fow.Closed);
  assert.deepStrictEqual(access.scopes, []);
  validator.close();
  assert.throws(() => validator.validate(token, { access: new fow.Access({}), now: NOW }), fow.Closed);
}

/** The rules of docs/ACCESS.md, which stand in examples/access, with what is expected there of the claims beside them. */
function testRulesOfTheDocuments() {
  const said = [], keys = fs.readFileSync(path.join(TOP, 'examples/rfc7515-a1.keys')), now = 1639528911;
  const shown = fs.readFileSync(path.join(TOP, 'docs/ACCESS.md')).toString(), folder = path.join(TOP, 'examples/access');
  for (const file of fs.readdirSync(folder).filter((it) => it.endsWith('.access')).sort()) {
    const name = path.basename(file, '.access'), rule = path.join(folder, name), validator = new fow.Validator(read(rule, 'policy'), keys);
    const access = new fow.Access(read(rule, 'access'));
    assert.ok(shown.includes(`\`\`\`json\n${read(rule, 'access')}\`\`\`\n`), name);
    said.push(name);
    for (const claims of read(rule, 'claims').toString().trimEnd().split('\n')) {
      const token = validator.issue(claims, { typ: 'at+jwt' });
      said.push(`${verdictOf(validator, token, { access, now })} sig=0 key=0 tries=1 work=${validator.judge(token, now).work}`);
    }
  }
  assert.deepStrictEqual(said, fs.readFileSync(path.join(folder, 'expected.txt')).toString().trimEnd().split('\n'));
}

/** What the program prints of a token: that it is accepted, or why it is denied. */
function verdictOf(validator, token, how) {
  try {
    validator.validate(token, how);
    return 'accepted';
  } catch (error) {
    if (!(error instanceof fow.Denied)) throw error;
    const { fault, scope, claim } = error;
    return `denied ${fault} ${scope === undefined ? 'claim' : 'scope'}=${JSON.stringify(scope ?? claim)}`;
  }
}

function testMistakes() {
  const validator = validatorOf(HMAC), token = tokenOf(HMAC);
  for (const it of [undefined, null, 7, new Uint16Array(2), new ArrayBuffer(2)]) {
    assert.throws(() => validator.validate(it, NOW), TypeError);
  }
  for (const it of [undefined, 7n, Symbol('a'), new Uint16Array(2), new ArrayBuffer(2)]) {
    assert.throws(() => new fow.Validator(it, { keys: [] }), TypeError);
    assert.throws(() => validator.issue(it), TypeError);
  }
  for (const now of [1.5, NaN, Infinity, 2 ** 53, null, `${NOW}`, 2n ** 63n]) assert.throws(() => validator.validate(token, now), RangeError);
  for (const key of [-1, 0.5, 2 ** 32]) {
    assert.throws(() => validator.issue({}, { key }), RangeError);
    assert.throws(() => validator.unverifiedHeader(token, key), RangeError);
  }
  assert.throws(() => validator.issue({}, { alg: 'RS256' }), RangeError);
  assert.throws(() => validator.issue({}, { form: 'toString' }), RangeError);
  assert.ok(validator.judge(token, BigInt(NOW)).accepted);
  assert.ok(!validator.judge(token, 2n ** 63n - 1n).accepted);
}

function testClosing() {
  const validator = validatorOf(HMAC), token = tokenOf(HMAC);
  validator.close();
  validator.close();
  for (const call of ['validate', 'validateText', 'judge', 'unverifiedHeader', 'issue']) assert.throws(() => validator[call](token), fow.Closed);
}

function testIssuing() {
  const validator = validatorOf(HMAC), claims = { iss: 'joe', exp: NOW + 1 };
  for (const form of ['compact', 'general', 'flattened']) {
    assert.deepStrictEqual(validator.validate(validator.issue(claims, { form }), NOW), claims);
  }
  assert.throws(() => validator.issue(claims, { key: 7 }), { name: 'IssueRefused', fault: 'NoKey' });
  assert.throws(() => validator.issue({ iss: 7 }), { name: 'IssueRefused', fault: 'ClaimKind', claim: 'iss' });
  assert.deepStrictEqual(validator.unverifiedHeader(validator.issue({}, { typ: 'at+jwt' })), { alg: 'HS256', typ: 'at+jwt' });
  assert.strictEqual(validator.unverifiedHeader('a.b'), undefined);
}

/** A validator that takes tokens, which it issues too. */
const takingIn = (once) => new fow.Validator({ algs: ['HS256'], leeway: 60 }, read(HMAC, 'keys'), { once: once === 10 ? new fow.Once(once, { opened: 0 }) : once });

/** An accepted token that isn't taken, for this reason. */
function notTaken(validator, token, now, fault) {
  const error = { name: 'NotTaken', fault, message: `the token counts once, and isn't taken: ${fault}` };
  for (const call of ['validate', 'validateText']) assert.throws(() => validator[call](token, now), error);
  assert.throws(() => validator.validate(token, now), fow.TokenRefused);
}

function testOnce() {
  const validator = takingIn(10), token = validator.issue({ iss: 'i', jti: 'a', exp: 1000 });
  // (what judges, is denied, or is refused, takes nothing)
  assert.ok(validator.judge(token, 900).accepted);
  assert.throws(() => validator.validate(token, { access: new fow.Access({ scopes: ['read'] }), now: 900 }), fow.Denied);
  assert.throws(() => validator.validate(token, 1060), fow.ClaimsRefused);
  assert.strictEqual(validator.validate(token, 900).jti, 'a');
  notTaken(validator, token, 900, 'Seen');
  notTaken(validator, token, 900n, 'Seen');
  assert.throws(() => validator.validate(token, { access: new fow.Access({}), now: 900 }), fow.NotTaken);
  // (another token with the same issuer and jti, and another issuer)
  notTaken(validator, validator.issue({ iss: 'i', jti: 'a', exp: 1001 }), 1060, 'Seen');
  assert.strictEqual(JSON.parse(validator.validateText(validator.issue({ jti: 'a', exp: 1000 }), 900)).jti, 'a');
  const plain = validatorOf(HMAC);
  for (let n = 0; n < 2; n++) assert.strictEqual(plain.validate(tokenOf(HMAC), NOW).iss, 'joe');
}

function testWhyNotTaken() {
  const validator = takingIn(new fow.Once(1, { opened: 0 })), issue = (claims) => validator.issue(claims);
  notTaken(validator, issue({ iss: 'i', exp: 1000 }), 900, 'NoId');
  notTaken(validator, issue({ iss: 'i', jti: 'a' }), 900, 'NoEnd');
  notTaken(validator, issue({ jti: 'a', exp: 1000, iat: 961 }), 900, 'Ahead');
  validator.validate(issue({ jti: 'a', exp: 1000 }), 900);
  notTaken(validator, issue({ jti: 'b', exp: 2000 }), 900, 'Full');
  validator.validate(issue({ jti: 'b', exp: 2000 }), 1061);
  notTaken(validator, issue({ jti: 'a', exp: 1000 }), 900, 'Late');
}

/** Validators share a memory, and what is none is refused: one that is undefined would take nothing. */
function testMemories() {
  const once = new fow.Once(2 ** 32 - 1, { opened: 0 }), [first, second] = [takingIn(once), takingIn(once)], token = first.issue({ jti: 'a', exp: 1000 });
  first.validate(token, 900);
  notTaken(second, token, 900, 'Seen');
  for (const it of [undefined, null, true, '10', 10n, {}, fow.Once, Object.create(fow.Once.prototype), structuredClone(once)]) assert.throws(() => takingIn(it), TypeError);
  for (const it of [0, -1, 0.5, NaN, 2 ** 32]) {
    assert.throws(() => takingIn(it), RangeError);
    assert.throws(() => new fow.Once(it), RangeError);
  }
  assert.throws(() => new fow.Once(), RangeError);
  for (let n = 0; n < 2; n++) once.close();
  for (const it of [first, second]) assert.throws(() => it.validate(token, 900), fow.Closed);
  assert.ok(first.judge(token, 900).accepted);
}

/** What a careless merge has left in Object.prototype decides nothing. (It stays there for a moment: Node has an option of that name.) */
async function testPlantedOnce() {
  const { RemoteKeys } = require('../remote.js');
  let tried;
  Object.prototype.once = 'planted';
  try {
    assert.strictEqual(validatorOf(HMAC).validate(tokenOf(HMAC), NOW).iss, 'joe');
    tried = RemoteKeys.open({ algs: ['RS256'] }, 'ftp://issuer.example/keys');
    tried.catch(() => {});
  } finally {
    delete Object.prototype.once;
  }
  await assert.rejects(tried, /the URL of a key set/);
}

/** What was taken stays so under new keys. */
async function testOnceByUrl() {
  const { RemoteKeys } = require('../remote.js'), folder = path.join(TOP, 'examples/profiles/client-assertion');
  const token = fs.readFileSync(path.join(folder, 'tokens/good.jwt')), policy = fs.readFileSync(path.join(folder, 'policy.json'));
  const server = http.createServer((_, response) => response.end(fs.readFileSync(path.join(folder, 'keys.json')))).listen(0, '127.0.0.1');
  await once(server, 'listening');
  const url = `http://127.0.0.1:${server.address().port}/keys`;
  try {
    const keys = await RemoteKeys.open(policy, url, { allowHttp: true, once: new fow.Once(10, { opened: 0 }) });
    await keys.validate(token, NOW);
    assert.ok(await keys.refresh());
    await assert.rejects(keys.validate(token, NOW), { name: 'NotTaken', fault: 'Seen' });
    keys.close();
    await assert.rejects(RemoteKeys.open(policy, url, { allowHttp: true, once: undefined }), TypeError);
  } finally {
    server.close();
  }
}

/** A guard answers a token that isn't taken as one that isn't accepted. */
function testGuardOnce() {
  const { guard } = require('../guard.js'), validator = takingIn(new fow.Once(10, { opened: 0 })), said = [];
  const token = validator.issue({ jti: 'a', exp: Math.floor(Date.now() / 1000) + 600 });
  for (let n = 0; n < 2; n++) {
    const headers = {}, response = { setHeader: (name, value) => { headers[name] = value; }, end() { said.push([this.statusCode, headers['WWW-Authenticate']]); } };
    guard(validator)({ rawHeaders: ['Authorization', `Bearer ${token}`], headers: {} }, response, () => said.push('let in'));
  }
  assert.deepStrictEqual([said.length, said[0], said[1][0]], [2, 'let in', 401]);
  assert.match(said[1][1], /error="invalid_token"/);
}

/** The profile of ID tokens, and the access token of OpenID Connect Core 1.0, appendix A.4, whose `at_hash` one of its tokens has. */
const LOGIN = path.join(TOP, 'examples/profiles/id-token'), ACCESS_TOKEN = 'jHkWEdUXMU1BwAsC4vtUsZwnNvTIxEl0z9K3vx5KF0Y';
const loginToken = (name) => fs.readFileSync(path.join(LOGIN, `tokens/${name}.jwt`), 'utf8');
const loginOf = (how) => new fow.Validator(fs.readFileSync(path.join(LOGIN, 'policy.json')), fs.readFileSync(path.join(LOGIN, 'keys.json')), how);

/** An accepted token that isn't the one that was expected, for this reason. */
function notExpected(validator, token, how, fault, claim) {
  const error = { name: 'NotExpected', fault, claim, message: `the token isn't what was expected: ${fault}: ${JSON.stringify(claim)}` };
  for (const call of ['validate', 'validateText']) assert.throws(() => validator[call](token, { now: NOW, ...how }), error);
  assert.throws(() => validator.validate(token, { now: NOW, ...how }), fow.TokenRefused);
}

function testExpected() {
  const validator = loginOf(), token = loginToken('good'), nonce = 'n-0S6_WzA2Mj';
  for (const expected of [{ nonce }, { nonce: new TextEncoder().encode(nonce), '/nonce': nonce }, {}]) {
    assert.strictEqual(validator.validate(token, { expected, now: NOW }).nonce, nonce);
  }
  for (const other of ['', 'n-', `${nonce} `, nonce.slice(1), new Uint8Array(0)]) notExpected(validator, token, { expected: { nonce: other } }, 'Other', 'nonce');
  notExpected(validator, token, { expected: { exp: '1300819979' } }, 'Other', 'exp');
  notExpected(validator, token, { expected: { nonce, sid: 's', iss: '' } }, 'Absent', 'sid');
  notExpected(validator, token, { expected: { '/nonce/a': 's' } }, 'Absent', '/nonce/a');
  notExpected(validator, token, { hashes: { at_hash: 't' }, expected: { nonce: '' } }, 'Other', 'nonce');
  notExpected(validator, loginToken('other-nonce'), { expected: { nonce } }, 'Other', 'nonce');
  // (behind the verdict, and behind the rule)
  assert.throws(() => validator.validate(token, { expected: { nonce: '' } }), { name: 'ClaimsRefused' });
  assert.throws(() => validator.validate(token, { expected: { nonce: '' }, access: new fow.Access({ scopes: ['read'] }), now: NOW }), { name: 'Denied' });
}

function testHalfHashes() {
  const token = loginToken('other-access-token'), validator = loginOf({ remember: { tokens: 2, octets: 4096 } });
  for (const at_hash of [ACCESS_TOKEN, new TextEncoder().encode(ACCESS_TOKEN)]) validator.validate(token, { hashes: { at_hash }, now: NOW });
  assert.ok(validator.judge(token, NOW).remembered);
  notExpected(validator, token, { hashes: { at_hash: 'another access token' } }, 'Other', 'at_hash');
  notExpected(validator, token, { hashes: { c_hash: ACCESS_TOKEN } }, 'Absent', 'c_hash');
  for (const [alg, name] of [['HS256', 'sha256'], ['HS384', 'sha384'], ['HS512', 'sha512']]) {
    const one = new fow.Validator({ algs: [alg] }, { keys: [{ kty: 'oct', k: Buffer.alloc(64).toString('base64url') }] });
    const digest = crypto.createHash(name).update('t').digest(), at_hash = digest.subarray(0, digest.length / 2).toString('base64url');
    const issued = one.issue({ at_hash }, { alg });
    one.validate(issued, { hashes: { at_hash: 't' } });
    notExpected(one, issued, { hashes: { at_hash: 'u' } }, 'Other', 'at_hash');
  }
}

/** What is expected is never nothing by mistake, and what isn't expected isn't taken. */
function testExpectedByMistake() {
  const validator = loginOf({ once: new fow.Once(10, { opened: 0 }) }), token = loginToken('good'), texts = [undefined, null, 'n', ['n'], 7, new Map([['nonce', 'n']])];
  for (const name of ['expected', 'hashes']) {
    for (const it of texts) assert.throws(() => validator.validate(token, { [name]: it, now: NOW }), TypeError);
    for (const it of [undefined, null, 7, ['n'], {}, new Uint16Array(1)]) assert.throws(() => validator.validate(token, { [name]: { nonce: it }, now: NOW }), TypeError);
    assert.throws(() => validator.validate(token, { [name]: { [Symbol('nonce')]: 'n' }, now: NOW }), TypeError);
    assert.throws(() => validator.validate(token, { [name]: { '\ud800': 'n' }, now: NOW }), TypeError);
  }
  assert.throws(() => validator.validate(token, { expected: { nonce: '\ud800' }, now: NOW }), TypeError);
  assert.throws(() => validator.validate(token, { expectd: { nonce: 'n' }, now: NOW }), TypeError);
  assert.throws(() => validator.validate(token, { expected: { nonce: 'n' }, access: undefined, now: NOW }), TypeError);
  notExpected(validator, token, { expected: { nonce: 'n' } }, 'Other', 'nonce');
  // (it has no jti, and so is asked for last)
  notTaken(validator, token, NOW, 'NoId');
  Object.prototype.nonce = 'planted';
  try {
    assert.throws(() => validator.validate(token, { expected: {}, now: NOW }), fow.NotTaken);
  } finally {
    delete Object.prototype.nonce;
  }
}

async function testFreeingMemories() {
  const before = process.memoryUsage().rss;
  for (let n = 0; n < 20000; n++) {
    const validator = n % 100 === 0 && takingIn(10);
    if (validator) validator.validate(validator.issue({ jti: 'a', exp: 1000 }), 900);
    new fow.Once(10);
    if (n % 100 === 0) await new Promise((done) => setImmediate(done));
  }
  assert.ok(process.memoryUsage().rss < before + 300e6, `${process.memoryUsage().rss}`);
}

/** Octets that another thread may change are copied before they are read. */
function testSharedBuffers() {
  const shared = new Uint8Array(new SharedArrayBuffer(read(HMAC, 'jwt').length));
  shared.set(read(HMAC, 'jwt'));
  assert.strictEqual(validatorOf(HMAC).validate(shared, NOW).iss, 'joe');
  const empty = new Uint8Array(8);
  structuredClone(empty.buffer, { transfer: [empty.buffer] });
  assert.throws(() => validatorOf(HMAC).validate(empty, NOW), { fault: 'Empty' });
}

async function testFreeing() {
  for (let n = 0; n < 5000; n++) validatorOf(HMAC);
  await new Promise((done) => setImmediate(done));
  assert.ok(process.memoryUsage().rss < 300e6, `${process.memoryUsage().rss}`);
}

/** (what is never closed is freed when the thread's loop turns; all of these rules together have 800 MB) */
async function testFreeingRules() {
  const rule = JSON.stringify({ claims: { a: Array.from({ length: 5000 }, (_, n) => n) } }), before = process.memoryUsage().rss;
  for (let n = 0; n < 5000; n++) {
    new fow.Access(rule);
    if (n % 100 === 0) await new Promise((done) => setImmediate(done));
  }
  assert.ok(process.memoryUsage().rss < before + 300e6, `${process.memoryUsage().rss}`);
}

async function testWorkers() {
  const counts = await Promise.all(Array.from({ length: 4 }, () => new Promise((done, failed) => {
    const worker = new Worker(__filename, { workerData: RSA });
    worker.on('message', done).on('error', failed);
  })));
  assert.deepStrictEqual(counts, [200, 200, 200, 200]);
}

async function testImport() {
  const { Validator, TokenRefused, ...others } = await import('../index.js');
  for (const it of ['Access', 'AccessRefused', 'Certificate', 'Denied', 'NotExpected', 'NotHeld', 'NotTaken', 'Once', 'Proof', 'Proofs', 'UNBOUND']) assert.ok(others[it] && others[it] === fow[it], it);
  assert.strictEqual(Validator, fow.Validator);
  assert.strictEqual(TokenRefused, fow.TokenRefused);
}

function testTypes(t) {
  const done = spawnSync('tsc', ['--noEmit', '--strict', '--target', 'es2022', '--module', 'node16', path.join(__dirname, '../types.ts')]);
  if (done.error) return t.skip('tsc is lacking (Debian: node-typescript)');
  assert.strictEqual(done.status, 0, `${done.stdout}`);
}

/** FOWHARIMU_ANOTHER is the number of the interface that the library has which FOWHARIMU_NODE was linked with, where it isn't this package's. */
function testAnotherLibrary() {
  const loaded = Number(process.env.FOWHARIMU_ANOTHER);
  for (const call of [() => validatorOf(HMAC), () => new fow.Access({}), () => new fow.Once(1), () => new fow.Proofs({}, 1)]) {
    assert.throws(call, { name: 'AnotherLibrary', loaded, madeFor: loaded - 1, version: 'another' });
  }
}

if (!isMainThread) {
  parentPort.postMessage(judgeMany(workerData));
} else if (process.env.FOWHARIMU_ANOTHER) {
  test('another library is refused', testAnotherLibrary);
} else {
  test('each token is accepted, and refused where it is changed', testEachToken);
  test('a signature by Ed448 is refused', testEd448);
  test('the clock is the moment', () => assert.throws(() => validatorOf(HMAC).validate(tokenOf(HMAC)), { fault: 'Expired' }));
  test('a report has each try', testReport);
  test('a token that comes again is judged by its claims', testRemembering);
  test('each kind of refusal', testRefusals);
  test('lone surrogates', testSurrogates);
  test('refused documents', testDocuments);
  test('claims that meet an access rule', testGranted);
  test('claims that are denied', testDenied);
  test('a denial is no refusal', testDenialIsNoRefusal);
  test('refused access rules', testRefusedRules);
  test('what is no access rule', testRulesByMistake);
  test('what is no document', testDocumentsByMistake);
  test('no access rule by mistake', testMistakenRules);
  test('the access rules of the documents', testRulesOfTheDocuments);
  test('tokens that count once', testOnce);
  test('why a token is not taken', testWhyNotTaken);
  test('memories of tokens that count once', testMemories);
  test('a memory that a prototype names', testPlantedOnce);
  test('tokens that count once, by URL', testOnceByUrl);
  test('a guard over tokens that count once', testGuardOnce);
  test('what a call expects', testExpected);
  test('half hashes that a call expects', testHalfHashes);
  test('nothing is expected by mistake', testExpectedByMistake);
  test('memories that are not closed are freed', testFreeingMemories);
  test('mistakes are told', testMistakes);
  test('a closed validator refuses', testClosing);
  test('what is issued is accepted', testIssuing);
  test('what a validator tells of its policy and keys', testTerms);
  test('several issuers', testIssuers);
  test('a guard where Promise was replaced', testGuardUnderAnotherPromise);
  test('a guard without the rule that is meant', testGuardWords);
  test('a token that a guard hides', testHiding);
  test('options are read strictly', testOptions);
  test('a library that a prototype names', testPlantedLibrary);
  test('an issuer that gives no answer', testNoAnswer);
  test('few tokens wait for a fetch', testFewWait);
  test('a call while keys are exchanged', testExchange);
  test('whoever is told of a fetch throws', testToldInVain);
  test("a planted timeout that Node's sockets read", { skip: 'timeout' in Object.prototype }, testPlantedTimeout);
  test('a policy of keys by URL that changes', testKeptPolicy);
  test('the times of keys by URL', testTimes);
  test('queries are told nowhere', testQueries);
  test('shared and detached buffers', testSharedBuffers);
  test('what is not closed is freed', testFreeing);
  test('access rules that are not closed are freed', testFreeingRules);
  test('workers judge at once', testWorkers);
  test('import finds each name', testImport);
  test('types', testTypes);
  require('./possession.js')(test);
}
