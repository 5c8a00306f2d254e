'use strict';
// cases.js [-remember] FILE: answers each case of a table that tests/cases/make wrote; tests/cases/README.md says what
// a line is. With -remember tokens are remembered, and each is judged at several moments first.
const assert = require('node:assert');
const fs = require('node:fs');
const fow = require('.');

const PARTS = { payload: 1, protected: 2, signature: 3 };
const STATES = { barred: 1, 'no key': 2, 'bad signature': 3, verified: 4, 'not reached': 5, stopped: 6 };
const KINDS = {
  PolicyRefused: 'policy', KeysRefused: 'keys', TooLong: 'text', FormRefused: 'form', CeilingReached: 'ceiling', SignatureRefused: 'signature',
  ClaimsRefused: 'claims', IssueRefused: 'issue', AccessRefused: 'access', Denied: 'denied',
};
const ALGORITHMS = { 1: 'HS256', 2: 'HS384', 3: 'HS512' };
const FORMS = { 1: 'compact', 2: 'general', 3: 'flattened' };
const FAR = 1_000_000_000n;
const REMEMBERS = process.argv.includes('-remember');
const OPENING = { remember: { tokens: REMEMBERS ? 100 : 0, octets: 2 ** 20 } };
const NOTHING = { signature: 0, key: 0, work: 0, states: [], tries: [] };

const octetsOf = (word) => (word === '-' ? Buffer.alloc(0) : Buffer.from(word, 'hex'));
const spelled = (text) => (text ? Buffer.from(text).toString('hex') : '-');

/** What a call gives, or the error of this package that it throws. */
function tried(call) {
  try {
    return call();
  } catch (error) {
    if (!(error instanceof fow.FowharimuError)) throw error;
    return error;
  }
}

/** The kind of a refusal, and its fault: issuing refuses for the faults of claims too. */
function faultOf(refusal) {
  if (!refusal) return '-';
  const isOfClaims = refusal instanceof fow.IssueRefused && refusal.fault.startsWith('Claim');
  return `${isOfClaims ? 'claims' : KINDS[refusal.name]}.${refusal.fault}`;
}

function verdictOf(refusal) {
  if (refusal instanceof fow.Denied) return 'denied';
  return refusal ? 'refused' : 'accepted';
}

/** An answer. What a refusal says beside the report has to be the same. */
function line(refusal, report, claims) {
  for (const name of ['signature', 'key']) assert.strictEqual(refusal?.[name] ?? report[name], report[name]);
  const states = report.states.map((it) => `${STATES[it.state]}/${it.fault ?? ''}/${it.key ?? 0}`);
  const tries = report.tries.map((it) => `${it.signature}/${it.key}/${it.cost}`);
  return [
    verdictOf(refusal), faultOf(refusal), PARTS[refusal?.part] ?? 0, report.signature, report.key,
    spelled(refusal?.claim ?? refusal?.scope ?? refusal?.member), report.work, states.join(), tries.join(), spelled(claims),
  ].join('\t');
}

/** Judges a token at its moment, at others, and at its moment again: an accepted one in compact form is remembered then. */
function again(validator, now, token) {
  const report = [now, now + FAR, now - FAR, now, now].map((it) => validator.judge(token, BigInt.asIntN(64, it))).at(-1);
  assert.ok(!report.accepted || report.remembered || token.includes('{'));
}

/** The answer to a token, under an access rule where there is one. What each call says of it has to be the same. */
function judged(validator, now, token, access) {
  if (REMEMBERS) again(validator, now, token);
  const how = access ? { access, now } : now, report = validator.judge(token, now);
  const text = tried(() => validator.validateText(token, how)), claims = tried(() => validator.validate(token, how));
  const isDenied = text instanceof fow.Denied, refusal = isDenied ? text : report.refusal;
  assert.strictEqual(report.accepted, report.refusal === null);
  if (isDenied) assert.ok(report.accepted && access && text.scopes === access.scopes);
  if (refusal === null) assert.deepStrictEqual(claims, JSON.parse(text));
  else for (const it of [text, claims]) assert.deepStrictEqual(it, refusal);
  return line(refusal, report, refusal === null ? text : undefined);
}

/** The answer to a token under an access rule, which is read first. */
function denied(validator, now, rule, token) {
  const access = tried(() => new fow.Access(rule));
  return access instanceof Error ? line(access, NOTHING) : judged(validator, now, token, access);
}

function issued(validator, [alg, form, key, typ, claims]) {
  const how = { alg: ALGORITHMS[alg], form: FORMS[form], key: Number(key), typ: octetsOf(typ).toString() };
  const token = tried(() => validator.issue(octetsOf(claims), how));
  return typeof token === 'string' ? line(null, NOTHING, token) : line(token, { ...NOTHING, signature: token.signature });
}

function answer(validator, what, words) {
  if (validator instanceof Error) return line(validator, NOTHING);
  if (what === 'issue') return issued(validator, words);
  const now = BigInt(words[0]), documents = words.slice(1).map(octetsOf);
  return what === 'deny' ? denied(validator, now, ...documents) : judged(validator, now, ...documents);
}

let validator;
const lines = [];
for (const it of fs.readFileSync(process.argv.at(-1), 'latin1').split('\n').slice(0, -1)) {
  const [what, ...words] = it.split(' ');
  if (what === 'open') validator = tried(() => new fow.Validator(...words.map(octetsOf), OPENING));
  else lines.push(`${words[0]}\t${answer(validator, what, words.slice(1))}\n`);
}
fs.writeFileSync(1, lines.join(''));
