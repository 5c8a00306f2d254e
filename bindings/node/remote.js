'use strict';
/** Key sets that stand at a URL, by the rules of docs/REMOTE-KEYS.md. remote.d.ts says what each call does. */

const { constants } = require('node:crypto');
const http = require('node:http');
const https = require('node:https');
const tls = require('node:tls');
const { isUint8Array } = require('node:util').types;
const { Validator, Closed, FowharimuError, SignatureRefused, TokenRefused, onceOf } = require('./index.js');
const { ofKind, own } = require('./options.js');
const { ASKER, Renewal } = require('./renewal.js');
const { ASKED, STEP, keysUrl, metadataUrl, nextStep, redirected, urlOf } = require('./urls.js');

const HEADERS = { accept: 'application/jwk-set+json, application/json', 'accept-encoding': 'identity' };
/** What Node would else take from its environment, or from a prototype: each option of a request that decides whom it reaches, and what is checked. */
const REQUEST = {
  method: 'GET', headers: HEADERS, agent: false, setHost: true, insecureHTTPParser: false, maxHeaderSize: 16_384,
  rejectUnauthorized: true, checkServerIdentity: tls.checkServerIdentity,
  auth: undefined, createConnection: undefined, family: undefined, localAddress: undefined, localPort: undefined, lookup: undefined, session: undefined,
  socket: undefined, socketPath: undefined, timeout: 0,
};
/** The same of TLS. */
const SECURE = { minVersion: 'TLSv1.2', maxVersion: 'TLSv1.3', ciphers: constants.defaultCoreCipherList };
/** The times in milliseconds, where none are given. */
const TIMES = { refreshAfter: 600_000, cooldown: 30_000, maxAge: 3_600_000, timeout: 5_000 };
/** The names of options, those of a validator among them. */
const REMOTE = [...Object.keys(TIMES), 'allowHttp', 'ca', 'onFetch', 'remember', 'once'];
/** The longest time that a timer takes. */
const LONGEST = 2 ** 31 - 1;

class KeysUnavailable extends FowharimuError {}
class KeysTooOld extends TokenRefused {}
for (const [name, kind] of Object.entries({ KeysUnavailable, KeysTooOld })) {
  Object.defineProperty(kind.prototype, 'name', { value: name, configurable: true, writable: true });
}

/** A URL from which keys may be fetched. */
function checkedUrl(text, allowHttp) {
  const at = urlOf(String(text), allowHttp === true);
  if (at !== undefined) return at;
  throw new TypeError('the URL of a key set is https, and has a host and neither a name nor a password, nor a fragment');
}

/** The options, with those times that aren't given. A comparison with what is no number would never say that keys are too old. */
function chosen(options) {
  const how = own(options, REMOTE, 'RemoteKeys');
  ofKind('boolean', how, 'allowHttp');
  ofKind('function', how, 'onFetch');
  // (of one that is empty Node makes the authorities of the system)
  if (how.ca !== undefined && !(how.ca?.length > 0)) throw new TypeError('ca has to have certificates');
  for (const [name, otherwise] of Object.entries(TIMES)) {
    how[name] ??= otherwise;
    if (!(typeof how[name] === 'number' && how[name] >= 0)) throw new RangeError(`${name} has to be a number of milliseconds from 0`);
  }
  if (how.timeout > LONGEST) throw new RangeError(`timeout has to be at most ${LONGEST} milliseconds`);
  // (a memory of tokens that count once is one for all key sets that come)
  if ('once' in how) how.once = onceOf(how);
  return how;
}

/** A policy that was checked, as it is now, whatever becomes of the object later. */
function kept(policy) {
  if (isUint8Array(policy)) return new Uint8Array(policy);
  return typeof policy === 'string' ? policy : JSON.stringify(policy);
}

/** The options that are those of a validator. */
function validating(how) {
  const { remember } = how;
  return Object.hasOwn(how, 'once') ? { remember, once: how.once } : { remember };
}

/** The authorities that are trusted, and how: made once, since it holds all of them. */
function secured({ ca }) {
  return tls.createSecureContext({ __proto__: null, ...SECURE, ca });
}

/** Refuses a policy with an HMAC algorithm, or one that doesn't name exactly the issuer, where there is one. */
function checkPolicy(policy, how, issuer) {
  const read = new Validator(policy, '{"keys":[]}', validating(how));
  read.close();
  if (!read.isPublic) throw new TypeError('a policy with an HMAC algorithm has no keys by URL, since what is fetched is public');
  if (issuer !== undefined && read.issuer !== issuer) throw new TypeError('the policy has to name the issuer in issuers, and no other');
}

/** One answer, as it comes. */
function answer({ isHttps, hostname, port, path }, { secureContext, signal, onSocket }) {
  const { get } = isHttps ? https : http;
  const at = { protocol: isHttps ? 'https:' : 'http:', hostname, host: hostname, port, defaultPort: isHttps ? 443 : 80, path };
  const options = { __proto__: null, ...REQUEST, ...at, secureContext, signal };
  return new Promise((resolve, reject) => {
    const request = get(options, resolve);
    // (one that is closed without an answer, as by a status of 101, makes no error)
    request.on('socket', onSocket).on('error', reject).on('close', () => reject(new Error('it gives no answer')));
  });
}

/** What stands at a URL, with redirections followed; undefined where the other metadata are to be asked for. */
async function get(url, how, asked = ASKED.keys) {
  for (let at = url, followed = 0; ; followed++) {
    const response = await answer(at, how);
    const { step, most } = nextStep(asked, response.statusCode, followed);
    if (step === STEP.take) return content(response, most);
    response.destroy();
    if (step === STEP.askOAuth) return undefined;
    if (step === STEP.tooOften) throw new Error('it redirects too often');
    if (step !== STEP.follow) throw new Error(`its status is ${response.statusCode}`);
    at = redirected(at, Object.hasOwn(response.headers, 'location') ? response.headers.location : '');
    if (at === undefined) throw new Error('it redirects to another origin, or to no URL');
  }
}

/** What an answer has. */
async function content(response, most) {
  const parts = [];
  let length = 0;
  for await (const part of response) {
    parts.push(part);
    length += part.length;
    if (length > most) throw new Error(`it has more than ${most} octets`);
  }
  return Buffer.concat(parts);
}

/** The URL of an issuer's keys, which its metadata tell. */
async function discovered(issuer, how) {
  const secureContext = secured(how);
  const read = async (words) => {
    const told = { ...words, secureContext };
    const text = await get(metadataUrl(ASKED.openId, issuer), told, ASKED.openId);
    return text ?? get(metadataUrl(ASKED.oauth, issuer), told, ASKED.oauth);
  };
  const fetch = new Fetch(read, how.timeout);
  fetch.hold();
  return checkedUrl(keysUrl(await fetch.octets, issuer), how.allowHttp);
}

/** The `kid` of a token, for which nobody vouches; empty where there is none. */
function kidOf(validator, token) {
  const header = validator.unverifiedHeader(token) ?? {};
  return Object.hasOwn(header, 'kid') && typeof header.kid === 'string' ? header.kid : '';
}

/** One fetch. It is over at its deadline, whatever the transport does. While only the background waits for it, it doesn't keep the process alive. */
class Fetch {
  #isHeld = false;
  #socket;
  #timer;

  constructor(read, timeout, ticket = 0) {
    /** Its number. */
    this.ticket = ticket;
    const stop = new AbortController();
    const late = new Promise((_, reject) => {
      this.end = (why) => {
        reject(why);
        stop.abort();
      };
    });
    this.#timer = setTimeout(() => this.end(new Error('it takes too long')), timeout).unref();
    const onSocket = (socket) => {
      this.#socket = socket;
      if (!this.#isHeld) socket.unref();
    };
    /** What comes. */
    this.octets = Promise.race([read({ signal: stop.signal, onSocket }), late]).finally(() => clearTimeout(this.#timer));
  }

  /** Keeps the process alive until it is over. */
  hold() {
    if (this.#isHeld) return;
    this.#isHeld = true;
    this.#timer.ref();
    this.#socket?.ref();
  }
}

class RemoteKeys {
  #policy;
  #at;
  #how;
  #options;
  #validator;
  #renewal;
  /** The ticket of the keys, and until when a token is judged by them without asking. */
  #quiet = { keys: 0, until: -Infinity };
  #fetch;
  #isClosed = false;
  error = null;

  static async open(policy, url, options = {}) {
    const how = chosen(options);
    checkPolicy(policy, how);
    return RemoteKeys.#begun(kept(policy), checkedUrl(url, how.allowHttp), how);
  }

  static async discover(policy, issuer, options = {}) {
    const how = chosen(options);
    checkPolicy(policy, how, issuer);
    const its = kept(policy), { text } = checkedUrl(issuer, how.allowHttp);
    if (metadataUrl(ASKED.openId, text) === undefined) throw new TypeError('an issuer has no query');
    let url;
    try {
      url = await discovered(text, how);
    } catch (error) {
      throw unavailable(error);
    }
    return RemoteKeys.#begun(its, url, how);
  }

  static async #begun(policy, at, how) {
    const it = new RemoteKeys();
    it.#policy = policy;
    it.#at = at;
    it.#how = { timeout: how.timeout, onFetch: how.onFetch, secureContext: secured(how) };
    it.#renewal = new Renewal(how);
    it.#options = validating(how);
    if (!(await it.refresh())) throw unavailable(it.error);
    return it;
  }

  async validate(token, how, ...others) {
    return this.#by(token, (validator) => validator.validate(token, how, ...others));
  }

  async judge(token, now, ...others) {
    let report;
    try {
      await this.#by(token, (validator) => {
        report = validator.judge(token, now, ...others);
        if (report.refusal) throw report.refusal;
      });
    } catch (error) {
      if (error instanceof KeysTooOld) return { accepted: false, refusal: error, signature: 0, key: 0, work: 0, states: [], tries: [], remembered: false };
      if (error !== report?.refusal) throw error;
    }
    return report;
  }

  get issuer() {
    return this.#open().issuer;
  }

  get limit() {
    return this.#open().limit;
  }

  unverifiedIssuer(token) {
    return this.#open().unverifiedIssuer(token);
  }

  async refresh() {
    const before = this.#validator;
    await this.#wait(this.#ask(ASKER.owner).fetch);
    return this.#validator !== before;
  }

  close() {
    this.#isClosed = true;
    this.#fetch?.end(new Closed('the keys are closed'));
    this.#validator?.close();
    this.#validator = undefined;
    this.#quiet = { keys: 0, until: -Infinity };
  }

  /** The validator that is held, however old its keys are. */
  #open() {
    if (this.#isClosed) throw new Closed('the keys are closed');
    return this.#validator;
  }

  /** Judges by the keys, and once more by newer ones where these may change what came of it and can be had. */
  async #by(token, judge) {
    const known = performance.now() < this.#quiet.until ? this.#quiet : this.#ask(ASKER.token);
    const keys = known.keys ?? (await this.#renewed(known.fetch, token));
    // (a validator is used at once: while others are awaited it may be closed)
    const used = this.#open();
    try {
      return judge(used);
    } catch (error) {
      if (!(error instanceof SignatureRefused) || !['NoKey', 'BadSignature'].includes(error.fault)) throw error;
      await this.#waitFor(this.#ask(ASKER.refused, keys).fetch, token);
      if (this.#validator === used || this.#validator === undefined) throw error;
      return judge(this.#validator);
    }
  }

  /** The ticket of newer keys, where those that are held are too old, after a wait. */
  async #renewed(fetch, token) {
    await this.#waitFor(fetch, token);
    const { keys } = this.#ask(ASKER.waited);
    if (keys === undefined) throw new KeysTooOld("the keys are too old, and newer ones can't be fetched", { fault: 'KeysTooOld' });
    return keys;
  }

  /** The ticket of the keys that are to be used, undefined where they are too old; and the fetch that whoever asked may wait for, if any. One begins where the
   * library says so. */
  #ask(asker, keys) {
    if (this.#isClosed) throw new Closed('the keys are closed');
    const said = this.#renewal.ask(asker, keys);
    this.#quiet = { keys: said.keys, until: said.keys === undefined ? -Infinity : said.until };
    if (said.begins !== undefined) this.#begin(said.begins);
    return { keys: said.keys, fetch: said.isUnderWay ? this.#fetch : undefined };
  }

  #begin(ticket) {
    const { secureContext, timeout } = this.#how;
    // (one whose deadline is over is dropped)
    this.#fetch?.end(new Error('it takes too long'));
    const fetch = new Fetch((words) => get(this.#at, { ...words, secureContext }), timeout, ticket);
    this.#fetch = fetch;
    fetch.done = this.#run(fetch);
  }

  /** Waits for a fetch, where there is one for which this token may wait. */
  async #waitFor(fetch, token) {
    if (fetch === undefined || !this.#renewal.wait(fetch.ticket, kidOf(this.#open(), token))) return;
    await this.#wait(fetch);
  }

  /** Waits for a fetch that is under way. */
  #wait(fetch) {
    fetch.hold();
    return fetch.done;
  }

  /** Ends when a fetch is over. */
  async #run(fetch) {
    let octets = 0, error = null;
    try {
      const keys = await fetch.octets;
      octets = keys.length;
      this.#exchange(new Validator(this.#policy, keys, this.#options), fetch);
    } catch (why) {
      error = why;
      this.#renewal.failed(fetch.ticket);
    }
    if (this.#fetch === fetch) {
      this.#fetch = undefined;
      this.error = error;
    }
    this.#tell(octets, error);
  }

  /** Tells what became of a fetch. Whoever is told may throw, which says nothing of a token. */
  #tell(octets, error) {
    try {
      // (without the query, in which a service may have a secret)
      this.#how.onFetch?.(this.#at.text.split('?', 1)[0], octets, error);
    } catch (why) {
      process.emitWarning(why instanceof Error ? why : String(why));
    }
  }

  /** Takes the new validator in place of the old one, in which no call is under way. */
  #exchange(validator, fetch) {
    try {
      // (what is fetched is public: RFC 8725, section 2.1)
      if (!validator.isPublic) throw new Error('it has a key of kty oct in it, which everyone may read');
      if (this.#isClosed) throw new Closed('the keys are closed');
      if (!this.#renewal.took(fetch.ticket)) throw new Error('it takes too long');
    } catch (error) {
      validator.close();
      throw error;
    }
    this.#validator?.close();
    this.#validator = validator;
    // (a token asks again)
    this.#quiet = { keys: fetch.ticket, until: -Infinity };
  }
}
if (Symbol.dispose) RemoteKeys.prototype[Symbol.dispose] = RemoteKeys.prototype.close;

function unavailable(error) {
  return new KeysUnavailable(`the key set can't be fetched: ${error.message}`, { cause: error });
}

module.exports = { RemoteKeys, KeysUnavailable, KeysTooOld };
