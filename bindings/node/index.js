'use strict';
/** Validates JSON Web Tokens (RFC 7519) by a library that is proved correct, public-key signatures too. index.d.ts says what each call does. */

const { existsSync } = require('node:fs'), { join } = require('node:path'), { types } = require('node:util');
const meanings = require('./meanings.js');
const { isPlain, ofKind, own } = require('./options.js');

const OK = 0, REFUSED = 1, OUT_OF_MEMORY = 3;
/** FOW_NO_FAULT and FOW_DENIED_SCOPE_MISSING of fowharimu.h. */
const NO_FAULT = 0, SCOPE_MISSING = 1001;
/** FOW_NOT_EXPECTED, FOW_PROOF_OTHER_NONCE, FOW_TAKEN_NEW, and the names of the other answers of enum fow_taken. */
const NOT_EXPECTED = 9, OTHER_NONCE = 1303, TAKEN_NEW = 1, NOT_TAKEN = { 2: 'Seen', 3: 'Late', 4: 'Full', 5: 'NoId', 6: 'NoEnd', 7: 'Ahead', 8: 'OwnFull', 9: 'Before' };
/** The names of enum fow_unmet, from FOW_UNMET_ABSENT on. */
const UNMET = { 1: 'Absent', 2: 'Other' };
/** FOW_BOUND_CERTIFICATE and FOW_BINDING_UNKNOWN of fowharimu.h, of which no bit and no fault is the other; and no certificate. */
const BOUND_CERTIFICATE = 2, BINDING_UNKNOWN = 1401;
const NO_CERTIFICATE = new Uint8Array(0);
const NOTHING_REMEMBERED = { tokens: 0, octets: 0 };
/** The names of options. */
const OPENING = ['remember', 'once'], REMEMBER = ['tokens', 'octets'], ISSUING = ['key', 'alg', 'form', 'typ'];
const ASKING = ['access', 'expected', 'hashes', 'holder', 'now'], SHOWING = ['dpop', 'method', 'uri', 'nonce', 'nonces'], HOLDING = ['share', 'opened'];
const GREATEST_NUMBER = 2 ** 32 - 1;
const PARTS = { 1: 'payload', 2: 'protected', 3: 'signature' };
const STATES = { 1: 'barred', 2: 'no key', 3: 'bad signature', 4: 'verified', 5: 'not reached', 6: 'stopped' };
const CLAIMS = { 1: 'iss', 2: 'sub', 3: 'aud', 4: 'exp', 5: 'nbf', 6: 'iat', 7: 'jti' };
const FORMS = { compact: 1, general: 2, flattened: 3 };
const HMAC = { HS256: 1, HS384: 2, HS512: 3 };

class FowharimuError extends Error {
  constructor(message, members) {
    super(message);
    Object.assign(this, members);
  }
}
// (a name that stands on the class costs no error anything)
const named = (kind, name) => Object.defineProperty(kind.prototype, 'name', { value: name, configurable: true, writable: true });
class AnotherLibrary extends FowharimuError {}
class Closed extends FowharimuError {}
class PolicyRefused extends FowharimuError {}
class KeysRefused extends FowharimuError {}
class IssueRefused extends FowharimuError {}
class AccessRefused extends FowharimuError {}
class Denied extends FowharimuError {}
class TokenRefused extends FowharimuError {}
class TooLong extends TokenRefused {}
class FormRefused extends TokenRefused {}
class CeilingReached extends TokenRefused {}
class SignatureRefused extends TokenRefused {}
class ClaimsRefused extends TokenRefused {}
class NotExpected extends TokenRefused {}
class NotHeld extends TokenRefused {}
class NotTaken extends TokenRefused {}
const ERRORS = {
  FowharimuError, AnotherLibrary, Closed, PolicyRefused, KeysRefused, IssueRefused, AccessRefused, Denied, TokenRefused,
  TooLong, FormRefused, CeilingReached, SignatureRefused, ClaimsRefused, NotExpected, NotHeld, NotTaken,
};
for (const [name, kind] of Object.entries(ERRORS)) named(kind, name);

/**
 * The functions of addon.c: those of the file that FOWHARIMU_NODE names, or of the addon in this package for this system and processor; where there is none, or this system
 * can't load it, those of the library as WebAssembly, which is slower and answers the same.
 */
function load() {
  // (what isn't in the environment would be looked for in Object.prototype)
  const file = Object.hasOwn(process.env, 'FOWHARIMU_NODE') ? process.env.FOWHARIMU_NODE : '';
  if (file) return require(file);
  const addon = join(__dirname, 'prebuilds', `${process.platform}-${process.arch}`, 'fowharimu.node');
  try {
    if (existsSync(addon)) return require(addon);
  } catch (error) {
    if (error.code !== 'ERR_DLOPEN_FAILED') throw error;
  }
  return require('./wasm.js');
}
const native = load();

const isBinary = (it) => ArrayBuffer.isView(it) || it instanceof ArrayBuffer || it instanceof SharedArrayBuffer;
// (of what is binary only a Uint8Array is taken, and addon.c says so)
const octets = (document) => (typeof document === 'string' || isBinary(document) ? document : JSON.stringify(document, wholly));

/** Refuses in a document what JSON.stringify leaves out, or writes as `{}`, such as a promise or a map: a policy or a rule would ask for less. */
function wholly(name, value) {
  const isObject = typeof value === 'object' && value !== null, at = JSON.stringify(name);
  if (isObject ? !isPlain(value) : ['undefined', 'function', 'symbol'].includes(typeof value)) {
    throw new TypeError(`a document has plain objects and arrays, texts, numbers and booleans, and something else at ${at}`);
  }
  if (!Number.isInteger(value) || Number.isSafeInteger(value)) return value;
  throw new RangeError(`a document has at ${at} a number that isn't exact: a JSON text can have it`);
}

function compareLibrary() {
  const { madeFor, loaded, version } = native;
  if (madeFor === loaded) return;
  throw new AnotherLibrary(`the library ${version} has interface ${loaded}, and this package was made for ${madeFor}`, { madeFor, loaded, version });
}

/** The name of a fault, and what it means; behind it whose name it speaks of, where it speaks of one. */
function told(fault, meaning, name) {
  return `${fault}${meaning === undefined ? '' : ` (${meaning})`}${name === undefined ? '' : `: ${JSON.stringify(name)}`}`;
}

function documentRefused(number, policy) {
  const fault = native.faultName(number);
  if (Math.trunc(number / 100) === 2) return new KeysRefused(`the key set is refused: ${told(fault, meanings.keys[fault])}`, { fault });
  const member = native.refusedMember(policy);
  return new PolicyRefused(`the policy is refused: ${told(fault, meanings.policy[fault] ?? meanings.proof[fault], member)}`, { fault, member });
}

function accessRefused(number, rule) {
  const fault = native.faultName(number), member = native.refusedInAccess(rule);
  return new AccessRefused(`the access rule is refused: ${told(fault, meanings.access[fault], member)}`, { fault, member });
}

/** A moment as the library takes it: it is never wrapped or rounded. */
function moment(now) {
  if (now === undefined) return Math.floor(Date.now() / 1000);
  if (Number.isSafeInteger(now)) return now;
  if (typeof now === 'bigint' && BigInt.asIntN(64, now) === now) return now;
  throw new RangeError('now has to be a whole number of seconds that 64 bits have');
}

function whole(number, what) {
  if (Number.isInteger(number) && number >= 0 && number <= GREATEST_NUMBER) return number;
  throw new RangeError(`${what} has to be a whole number from 0 to ${GREATEST_NUMBER}`);
}

/** What a Validator may see of an Access, and nobody else: the rule as addon.c takes it, and its scopes. */
let ruleOf;

class Access {
  #held;
  #isClosed = false;
  #scopes = [];

  static {
    ruleOf = (access) => {
      if (typeof access !== 'object' || access === null || !(#held in access)) throw new TypeError('access has to be an Access');
      if (access.#isClosed) throw new Closed('the access rule is closed');
      return { held: access.#held, scopes: access.#scopes };
    };
  }

  constructor(rule) {
    compareLibrary();
    const text = octets(rule), held = native.openAccess(text);
    if (typeof held === 'number') throw accessRefused(held, text);
    for (let scope; (scope = native.scope(held, this.#scopes.length)) !== undefined; ) this.#scopes.push(scope);
    Object.freeze(this.#scopes);
    this.#held = held;
  }

  get scopes() {
    return this.#scopes;
  }

  close() {
    this.#isClosed = true;
    native.closeAccess(this.#held);
  }
}

/**
 * What a Validator may do with an Once, and nobody else: take what was accepted just now, at that moment, by a call of addon.c: the token of a validator, or the proof of a policy
 * for proofs. Throws NotTaken, and Closed.
 */
let take;
/** Whether something is an Once. */
let isOnce;

class Once {
  #held;
  #isClosed = false;

  static {
    isOnce = (it) => typeof it === 'object' && it !== null && #held in it;
    take = (once, isProof, held, now) => {
      if (once.#isClosed) throw new Closed('the memory of tokens that count once is closed');
      const taken = (isProof ? native.proofTaken : native.taken)(once.#held, held, now);
      if (taken === TAKEN_NEW) return;
      const fault = NOT_TAKEN[taken];
      const refusal = new NotTaken(`the token counts once, and isn't taken: ${fault === 'Before' ? 'it was issued before this memory was opened' : fault}`, { fault });
      outcomes.set(refusal, native.takenOutcome(isProof ? 1 : 0, REFUSED, taken));
      throw refusal;
    };
  }

  constructor(tokens, how = {}, ...others) {
    if (others.length > 0) throw new TypeError('a number of tokens and { share, opened } are taken, and nothing more');
    compareLibrary();
    const room = whole(tokens, 'once'), members = own(how, HOLDING, 'a memory');
    if (room === 0) throw new RangeError('once has to be at least 1');
    const share = 'share' in members ? whole(members.share, 'share') : 0, opened = 'opened' in members ? moment(members.opened) : moment() + 1;
    if ('share' in members && share === 0) throw new RangeError('share has to be at least 1');
    if (opened < 0) throw new RangeError('opened has to be a moment from 1970 on');
    this.#held = native.openOnce(room, share, opened);
  }

  close() {
    this.#isClosed = true;
    native.closeOnce(this.#held);
  }
}

/** The memory that options name: one that was made, or a new one for so many tokens; undefined where none is asked for, but not where it is named in vain. */
function onceOf(members) {
  if (!('once' in members) || isOnce(members.once)) return members.once;
  if (typeof members.once !== 'number') throw new TypeError('once has to be an Once, or a number of tokens');
  return new Once(members.once);
}

/** What a guard answers to an error that speaks of a proof: the number of enum fow_outcome, which the library gives. */
const outcomes = new WeakMap();

/** A token that is accepted, and whose sender hasn't shown that the key is theirs. */
function notHeld(fault) {
  return new NotHeld(`the sender of the token doesn't hold its key: ${told(fault, meanings.proof[fault] ?? meanings.binding[fault] ?? meanings.token[fault])}`, { fault });
}

/** The same, where native.shown has said that some way in which the token is bound isn't shown; null where each is. */
function unshown(said) {
  return said < BINDING_UNKNOWN ? null : notHeld(native.faultName(said));
}

/** The same, where a proof isn't one for its request. */
function notProved(status, number) {
  const refusal = notHeld(native.faultName(number));
  outcomes.set(refusal, native.proofOutcome(status, number));
  return refusal;
}

/** What Proofs may do with Nonces, and nobody else: tell whether something is such, and what the library says of the nonce of the proof that was accepted just now. */
let isNonces, freshness;

class Nonces {
  #secret;
  #period;

  static {
    isNonces = (it) => typeof it === 'object' && it !== null && #secret in it;
    freshness = (nonces, held, now) => native.proofFresh(held, nonces.#secret, nonces.#period, now);
  }

  constructor(secret, period = 60, ...others) {
    if (others.length > 0) throw new TypeError('a secret and a period are taken, and nothing more');
    if (!types.isUint8Array(secret)) throw new TypeError('a secret is a Uint8Array');
    compareLibrary();
    this.#secret = new Uint8Array(secret);
    this.#period = whole(period, 'a period');
    if (this.#period > 0xffffffff || native.nonce(this.#secret, this.#period, 0) === undefined) {
      throw new RangeError('a secret of nonces has at least 32 bytes, and their period is from 1 to 4294967295 seconds');
    }
  }

  at(now) {
    return native.nonce(this.#secret, this.#period, moment(now));
  }
}

/** What a Proof may do with Proofs, and nobody else: tell whether something is Proofs, judge a proof beside the token that was accepted just now, and take it. */
let isProofs, judgeProof, takeProof, algsOf;

class Proofs {
  #held;
  #isClosed = false;
  #once;
  #room;

  static {
    isProofs = (it) => typeof it === 'object' && it !== null && #held in it;
    judgeProof = (proofs, validator, texts, nonces, now) => {
      if (proofs.#isClosed) throw new Closed('the policy for proofs is closed');
      const number = native.proofFault(proofs.#held, validator, ...texts, now);
      if (number !== NO_FAULT) return notProved(REFUSED, number);
      const fresh = nonces === undefined ? OK : freshness(nonces, proofs.#held, now);
      if (fresh === OK) return unshown(native.shown(validator, proofs.#held, NO_CERTIFICATE));
      if (fresh === NOT_EXPECTED) return notProved(NOT_EXPECTED, OTHER_NONCE);
      throw new Error('an allocation was refused');
    };
    takeProof = (proofs, now) => take(proofs.#once, true, proofs.#held, now);
    algsOf = (proofs) => native.proofAlgs(proofs.#held, proofs.#room);
  }

  constructor(policy, once, ...others) {
    if (others.length > 0) throw new TypeError('a policy for proofs and a memory are taken, and nothing more');
    compareLibrary();
    this.#once = onceOf({ once });
    const text = octets(policy), held = native.openProofs(text);
    if (typeof held === 'number') throw documentRefused(held, text);
    this.#held = held;
    this.#room = Buffer.byteLength(text);
  }

  close() {
    this.#isClosed = true;
    native.closeProofs(this.#held);
  }
}

/** A text, or a copy of octets. */
function copied(it, what) {
  if (typeof it === 'string') return it;
  if (types.isUint8Array(it)) return new Uint8Array(it);
  throw new TypeError(`${what} has to be a string or a Uint8Array`);
}

/**
 * What is asked of the sender, by its object, for a Validator alone: `refusal` says why the token that was accepted just now isn't held, and null where it is; `take` comes
 * last.
 */
const holders = new WeakMap();
const takeNothing = () => {};

class Proof {
  constructor(proofs, request) {
    if (!isProofs(proofs)) throw new TypeError('a proof is judged by Proofs');
    const members = own(request, SHOWING, 'a proof');
    const texts = ['dpop', 'method', 'uri'].map((name) => copied(members[name], name));
    texts.push('nonce' in members ? copied(members.nonce, 'nonce') : '');
    if ('nonce' in members && texts.at(-1).length === 0) throw new RangeError("a nonce isn't empty: where none was asked for, it is left out");
    if ('nonces' in members && !isNonces(members.nonces)) throw new TypeError('nonces has to be Nonces: where none is asked for, it is left out');
    if ('nonces' in members && 'nonce' in members) throw new TypeError('a proof has to have one nonce, or one of Nonces');
    holders.set(this, { refusal: (validator, now) => judgeProof(proofs, validator, texts, members.nonces, now), take: (now) => takeProof(proofs, now) });
  }
}

class Certificate {
  constructor(der) {
    if (!types.isUint8Array(der)) throw new TypeError('a certificate is a Uint8Array');
    const copy = copied(der);
    holders.set(this, { refusal: (validator) => byCertificate(native.shown(validator, null, copy)), take: takeNothing });
  }
}

/** Why a token isn't bound to the certificate by which native.shown was asked; null where it is. */
function byCertificate(said) {
  return unshown(said) ?? (said & BOUND_CERTIFICATE ? null : notHeld('OtherCertificate'));
}

const UNBOUND = Object.freeze(Object.create(null));
holders.set(UNBOUND, { refusal: (validator) => (unshown(native.shown(validator, null, NO_CERTIFICATE)) === null ? null : notHeld('Bound')), take: takeNothing });

function holderOf(it) {
  const holder = holders.get(it);
  if (holder === undefined) throw new TypeError('holder has to be a Proof, a Certificate or UNBOUND: where nothing is asked of the sender, it is left out');
  return holder;
}

/** Refuses more than a token and one word beside it: an access rule behind a moment would go unheard. */
function takeNoMore(others) {
  if (others.length > 0) throw new TypeError('beside the token one argument is taken: a moment, or for claims { access, expected, hashes, holder, now }');
}

/** What is expected of claims, in the object's order: of each its name, the octets, and the call of addon.c that holds them against it. */
function expectations(texts, what, hold) {
  if (typeof texts !== 'object' || texts === null || Array.isArray(texts) || !isPlain(texts)) throw new TypeError(`${what} is a plain object, by claims`);
  return Reflect.ownKeys(texts).map((claim) => {
    const given = texts[claim];
    if (typeof claim === 'string' && (typeof given === 'string' || isBinary(given))) return { claim, given, hold };
    throw new TypeError(`${what} has texts or Uint8Arrays under the names of claims, and something else at ${String(claim)}`);
  });
}

/**
 * What a token is asked for: the moment, the access rule, what is expected of its claims, and who sent it. An object always has a rule, an expectation or a holder, and
 * what it names is there: so none is left out by mistake.
 */
function asked(how, others) {
  takeNoMore(others);
  if (typeof how !== 'object' || how === null) return { __proto__: null, now: moment(how) };
  const members = own(how, ASKING, 'a call'), asks = { __proto__: null, now: moment(members.now) };
  if (!('expected' in members || 'hashes' in members || 'holder' in members)) return { __proto__: null, ...asks, rule: ruleOf(members.access) };
  if ('access' in members) asks.rule = ruleOf(members.access);
  if ('holder' in members) asks.holder = holderOf(members.holder);
  const texts = 'expected' in members ? expectations(members.expected, 'expected', native.expectText) : [];
  const hashes = 'hashes' in members ? expectations(members.hashes, 'hashes', native.expectHalfHash) : [];
  return { __proto__: null, ...asks, expected: [...texts, ...hashes] };
}

class Validator {
  #held;
  #isClosed = false;
  #once;
  #terms;
  #report = new Float64Array(8);

  constructor(policy, keys, options = {}) {
    compareLibrary();
    const members = own(options, OPENING, 'a validator'), { remember = NOTHING_REMEMBERED } = members;
    const { tokens, octets: longest } = own(remember, REMEMBER, 'remember');
    const room = [whole(tokens, 'remember.tokens'), whole(longest, 'remember.octets')];
    this.#once = onceOf(members);
    const text = octets(policy), held = native.open(text, octets(keys));
    if (typeof held === 'number') throw documentRefused(held, text);
    native.remember(held, ...room);
    this.#held = held;
    this.#terms = { issuer: native.soleIssuer(held), limit: native.tokenLimit(held), isPublic: native.isPublic(held) };
  }

  get issuer() {
    return this.#terms.issuer;
  }

  get limit() {
    return this.#terms.limit;
  }

  get isPublic() {
    return this.#terms.isPublic;
  }

  validate(token, how, ...others) {
    return this.#accepted(token, asked(how, others), JSON.parse);
  }

  validateText(token, how, ...others) {
    return this.#accepted(token, asked(how, others), (text) => text);
  }

  judge(token, now, ...others) {
    takeNoMore(others);
    const refusal = this.#judge(token, moment(now));
    const [, , , signature, key, , work, count] = this.#report;
    const remembered = native.remembered(this.#held);
    return { accepted: refusal === null, refusal, signature, key, work, states: this.#states(), tries: this.#tries(count), remembered };
  }

  unverifiedHeader(token, signature = 0) {
    const header = native.header(this.#open(), token, whole(signature, "a signature's number"));
    return header === undefined ? undefined : JSON.parse(header || '{}');
  }

  unverifiedIssuer(token) {
    return native.named(this.#open(), token);
  }

  issue(claims, options = {}) {
    const { key = 0, alg = 'HS256', form = 'compact', typ = '' } = own(options, ISSUING, 'issue');
    if (!Object.hasOwn(HMAC, alg) || !Object.hasOwn(FORMS, form)) throw new RangeError(`no algorithm or form ${alg}, ${form}`);
    if (typeof typ !== 'string') throw new TypeError('typ has to be a string');
    const number = whole(key, "a key's number");
    const token = native.issue(this.#open(), HMAC[alg], FORMS[form], number, typ, octets(claims), this.#report);
    if (token !== undefined) return token;
    const [status, fault, , signature, , claim] = this.#report;
    // (what is neither issued nor refused is a `typ` that is no text in UTF-8)
    if (status !== REFUSED) throw new RangeError('typ has to be a text without lone surrogates');
    const name = native.faultName(fault);
    throw new IssueRefused(`nothing is issued: ${told(name, meanings.issue[name] ?? meanings.token[name])}`, { fault: name, signature, claim: CLAIMS[claim] });
  }

  close() {
    this.#isClosed = true;
    native.close(this.#held);
  }

  #open() {
    if (this.#isClosed) throw new Closed('the validator is closed');
    return this.#held;
  }

  /** The payload of a token that is accepted and is as it is asked for, as it is to be read. It and its proof are taken last, so that nothing which fails has used them up. */
  #accepted(token, { now, rule, expected, holder }, reading) {
    const refusal = this.#judge(token, now) ?? (rule && this.#denial(rule)) ?? (expected && this.#unexpected(expected)) ?? holder?.refusal(this.#held, now);
    if (refusal) throw refusal;
    const claims = reading(native.payload(this.#held));
    // (a client makes another proof, and no other token)
    holder?.take(now);
    if (this.#once !== undefined) take(this.#once, false, this.#held, now);
    return claims;
  }

  /** Why a token isn't accepted, and null where it is. */
  #judge(token, now) {
    const verdict = native.judge(this.#open(), token, now, this.#report);
    return verdict === OK ? null : this.#refusal(verdict);
  }

  /** Why an access rule denies the token that was accepted just now, and null where its claims meet the rule. */
  #denial({ held, scopes }) {
    const number = native.denied(this.#held, held);
    if (number === NO_FAULT) return null;
    const fault = native.faultName(number), name = native.deniedName(this.#held, held), isScope = number === SCOPE_MISSING;
    const members = { fault, scope: isScope ? name : undefined, claim: isScope ? undefined : name, scopes };
    return new Denied(`the token is denied: ${told(fault, meanings.denied[fault], name)}`, members);
  }

  /** What the token that was accepted just now isn't, of that which is expected; null where it is all of it. */
  #unexpected(expected) {
    const [, , , signature] = this.#report;
    for (const { claim, given, hold } of expected) {
      const fault = UNMET[hold(this.#held, claim, given, signature)];
      if (fault !== undefined) return new NotExpected(`the token isn't what was expected: ${fault}: ${JSON.stringify(claim)}`, { fault, claim });
    }
    return null;
  }

  #refusal(verdict) {
    if (verdict === OUT_OF_MEMORY) throw new Error('an allocation was refused');
    if (verdict !== REFUSED) throw new Closed('the validator is closed');
    const [, number, part, signature, key, claim] = this.#report;
    const fault = native.faultName(number), said = `the token is refused: ${told(fault, meanings.token[fault])}`;
    switch (Math.trunc(number / 100)) {
      case 3: return new TooLong(said, { fault });
      case 4: return new FormRefused(said, { fault, part: PARTS[part], signature });
      case 5: return new CeilingReached(said, { fault, signature, key });
      case 6: return new SignatureRefused(said, { fault, signature });
      default: return this.#claimsRefused(said, fault, CLAIMS[claim] ?? native.refusedClaim(this.#held));
    }
  }

  #claimsRefused(said, fault, claim) {
    return new ClaimsRefused(claim === undefined ? said : `${said}: ${JSON.stringify(claim)}`, { fault, claim });
  }

  #states() {
    const states = [];
    for (let said; (said = native.state(this.#held, states.length)) !== undefined; ) {
      const [state, fault, key] = said;
      states.push({ state: STATES[state], fault: state === 1 ? native.faultName(fault) : undefined, key: state === 4 ? key : undefined });
    }
    return states;
  }

  #tries(count) {
    return Array.from({ length: count }, (_, n) => {
      const [signature, key, cost] = native.tried(this.#held, n);
      return { signature, key, cost };
    });
  }
}
if (Symbol.dispose) for (const it of [Validator, Access, Once, Proofs]) it.prototype[Symbol.dispose] = it.prototype.close;

/** Which implementation runs: 'native', the addon, or 'wasm'. */
const { implementation = 'native' } = native;

/** The text of a member of a JSON object, as the library reads it; undefined where there is none. */
const textMember = (document, name) => native.textMember(document, name);

// (each by its name: so that `import { Validator } from 'fowharimu'` finds them)
module.exports = {
  Validator, Access, Once, Nonces, Proofs, Proof, Certificate, UNBOUND, FowharimuError, AnotherLibrary, Closed, PolicyRefused, KeysRefused, IssueRefused, AccessRefused,
  Denied, TokenRefused, TooLong, FormRefused, CeilingReached, SignatureRefused, ClaimsRefused, NotExpected, NotHeld, NotTaken, textMember, implementation,
};
// (for renewal.js, requests.js and remote.js alone)
Object.defineProperty(module.exports, 'native', { value: native });
Object.defineProperty(module.exports, 'onceOf', { value: onceOf });
Object.defineProperty(module.exports, 'algsOf', { value: algsOf });
Object.defineProperty(module.exports, 'outcomeOfSender', { value: (error) => outcomes.get(error) });
