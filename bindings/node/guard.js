'use strict';
/** Lets HTTP requests through where their token is accepted (RFC 6750), and whoever sends it holds its key (RFC 9449). guard.d.ts says what each call does. */

const { Access, Denied, Nonces, Proof, Proofs, TokenRefused, UNBOUND, algsOf, outcomeOfSender } = require('.');
const { ofKind, own } = require('./options.js');
const { OUTCOME, SCHEME, isQuotable, replyTo, tokenIn } = require('./requests.js');

const WORDS = ['access', 'dpop', 'hidesToken', 'onRefusal', 'realm'], DPOP = ['nonces', 'only', 'origin', 'proofs'];
const ORIGIN = /^https?:\/\/[A-Za-z0-9._~!$&'()*+,;=:[\]%-]+$/i;

/** The values of all headers of a name: `headers` has the first alone, or joins them. */
function valuesOf({ rawHeaders }, name) {
  const values = [];
  for (let place = 0; place < rawHeaders.length; place += 2) {
    if (rawHeaders[place].toLowerCase() === name) values.push(rawHeaders[place + 1]);
  }
  return values;
}

/** Takes all headers of a name away. (Node makes `headers` and `headersDistinct` of `rawHeaders` when they are first read, by a count that stays.) */
function hide({ headers, headersDistinct, rawHeaders }, name) {
  delete headers[name];
  if (headersDistinct !== undefined) delete headersDistinct[name];
  for (let place = rawHeaders.length - 2; place >= 0; place -= 2) {
    if (rawHeaders[place].toLowerCase() === name) rawHeaders.splice(place, 2);
  }
}

/**
 * The path that the client wrote, which Express keeps beside the one that a router has. (A request may name a whole URL in its place, which is no path. It has no fragment: a `#`
 * belongs to the path.)
 */
function pathOf(request) {
  const target = Object.hasOwn(request, 'originalUrl') ? request.originalUrl : request.url;
  const path = target.split('?', 1)[0].replaceAll('#', '%23');
  return path.startsWith('/') ? path : `/${path}`;
}

/** What is known of a token that isn't taken, with the scopes that its request needs; undefined where the error says nothing of the token, and is the caller's. */
function outcomeOf(error) {
  if (error instanceof Denied) {
    const lacksScope = error.scope !== undefined;
    return { outcome: lacksScope ? OUTCOME.scopeMissing : OUTCOME.notGranted, scopes: lacksScope ? error.scopes.join(' ') : '' };
  }
  if (!(error instanceof TokenRefused)) return undefined;
  return { outcome: error.fault === 'KeysTooOld' ? OUTCOME.keysTooOld : outcomeOfSender(error) ?? OUTCOME.notAccepted, scopes: '' };
}

/** The words of how proofs are taken, and what follows of them. */
function checkedProofs(dpop) {
  const { proofs, origin, only = false, nonces } = own(dpop, DPOP, 'dpop');
  if (!(proofs instanceof Proofs)) throw new TypeError('proofs has to be Proofs');
  if (typeof origin !== 'string' || !ORIGIN.test(origin)) throw new TypeError('an origin is a scheme and a host, as https://api.example, and has no path');
  if (typeof only !== 'boolean') throw new TypeError('only has to be a boolean');
  if (Object.hasOwn(dpop, 'nonces') && !(nonces instanceof Nonces)) throw new TypeError('nonces has to be Nonces: where none is asked for, it is left out');
  return { proofs, origin, nonces, algs: algsOf(proofs), schemes: only ? SCHEME.dpop : SCHEME.bearer + SCHEME.dpop };
}

/** The words of a guard. Refuses what would leave an access rule out: a misspelled name, a rule that isn't there, or one that stands for the words. */
function checkedWords(how) {
  if (how instanceof Access) throw new TypeError('an access rule is handed in as { access }');
  const words = own(how, WORDS, 'a guard');
  if ('access' in words && !(words.access instanceof Access)) throw new TypeError('access has to be an Access');
  ofKind('string', words, 'realm');
  ofKind('boolean', words, 'hidesToken');
  ofKind('function', words, 'onRefusal');
  return { __proto__: null, ...words, dpop: 'dpop' in words ? checkedProofs(words.dpop) : undefined };
}

/** The token of a request with the scheme by which it is shown, and what is asked of who sends it; where it can't be judged, the outcome. (What isn't there isn't looked for in a prototype.) */
function askingOf(request, schemes, dpop) {
  const values = valuesOf(request, 'authorization');
  if (values.length > 1) return { __proto__: null, scheme: SCHEME.none, outcome: OUTCOME.several };
  const shown = tokenIn(schemes, values[0] ?? '');
  if (shown.token === undefined || shown.scheme !== SCHEME.dpop) return { __proto__: null, ...shown, holder: UNBOUND };
  const proofs = valuesOf(request, 'dpop');
  if (proofs.length !== 1) return { __proto__: null, scheme: shown.scheme, outcome: OUTCOME.proofRefused };
  const said = { dpop: Buffer.from(proofs[0], 'latin1'), method: request.method, uri: dpop.origin + pathOf(request) };
  return { __proto__: null, ...shown, holder: new Proof(dpop.proofs, dpop.nonces === undefined ? said : { ...said, nonces: dpop.nonces }) };
}

function guard(validator, how = {}) {
  const { access, dpop, realm = 'jwt', hidesToken = false, onRefusal = () => {} } = checkedWords(how);
  if (!isQuotable(realm)) throw new TypeError('a realm has printable characters of ASCII, and neither quotation marks nor backslashes');
  const schemes = dpop?.schemes ?? SCHEME.bearer, algs = dpop?.algs ?? '';
  const rule = access === undefined ? {} : { access };
  /** Answers a request that isn't let through. */
  const refuse = (response, scheme, outcome, scopes = '') => {
    const { status, challenges, wantsNonce } = replyTo(schemes, scheme, outcome, { realm, scopes, algs });
    response.statusCode = status;
    if (challenges.length > 0) response.setHeader('WWW-Authenticate', challenges.length === 1 ? challenges[0] : challenges);
    if (wantsNonce && dpop?.nonces !== undefined) {
      response.setHeader('DPoP-Nonce', dpop.nonces.at());
      response.setHeader('Cache-Control', 'no-store');
    }
    response.end();
  };
  return (request, response, next) => {
    const { token, scheme, outcome, holder } = askingOf(request, schemes, dpop);
    if (token === undefined) return refuse(response, scheme, outcome);
    const admit = (claims) => {
      request.auth = claims;
      if (hidesToken) for (const name of ['authorization', 'dpop']) hide(request, name);
      return next();
    };
    const turnAway = (error) => {
      if (error instanceof Denied || error instanceof TokenRefused) onRefusal(error, request);
      const known = outcomeOf(error);
      return known === undefined ? next(error) : refuse(response, scheme, known.outcome, known.scopes);
    };
    let claims;
    try {
      claims = validator.validate(token, { ...rule, holder });
    } catch (error) {
      return turnAway(error);
    }
    // (keys by URL promise the claims: by the language's own Promise, whatever stands under its name now. No claim is a function)
    return typeof claims?.then === 'function' ? claims.then(admit, turnAway).then(undefined, next) : admit(claims);
  };
}

module.exports = { guard };
