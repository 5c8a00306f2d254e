'use strict';
/** Several issuers, each with a policy and keys of its own. issuers.d.ts says what each call does. */

const meanings = require('./meanings.js');
const { Validator, ClaimsRefused } = require('./index.js');
const { RemoteKeys } = require('./remote.js');

const refused = () => new ClaimsRefused(`the token is refused: Issuer (${meanings.token.Issuer})`, { fault: 'Issuer', claim: undefined });

/** By the limit, and then by the issuer's octets. */
function compare([issuer, one], [other, another]) {
  return one.limit - another.limit || Buffer.compare(Buffer.from(issuer), Buffer.from(other));
}

class Issuers {
  #validators;
  #reader;

  constructor(validators) {
    this.#validators = new Map(validators instanceof Map ? validators : Object.entries(validators));
    for (const [issuer, it] of this.#validators) {
      if (!(it instanceof Validator || it instanceof RemoteKeys)) throw new TypeError('under an issuer stands a Validator, or RemoteKeys');
      if (it.issuer !== issuer) throw new TypeError(`the policy under ${JSON.stringify(issuer)} has to name it in issuers, and no other`);
    }
    const [first] = [...this.#validators].sort(compare);
    if (first === undefined) throw new TypeError('there has to be an issuer');
    this.#reader = first[1];
  }

  async validate(token, how, ...others) {
    const chosen = this.#chosen(token);
    if (chosen === undefined) throw refused();
    return chosen.validate(token, how, ...others);
  }

  async judge(token, now, ...others) {
    const chosen = this.#chosen(token);
    if (chosen !== undefined) return chosen.judge(token, now, ...others);
    return { accepted: false, refusal: refused(), signature: 0, key: 0, work: 0, states: [], tries: [], remembered: false };
  }

  close() {
    for (const it of this.#validators.values()) it.close();
  }

  /** What judges a token: the reader, where it is none; else what stands under the issuer that it names. */
  #chosen(token) {
    const issuer = this.#reader.unverifiedIssuer(token);
    return issuer === undefined ? this.#reader : this.#validators.get(issuer);
  }
}
if (Symbol.dispose) Issuers.prototype[Symbol.dispose] = Issuers.prototype.close;

module.exports = { Issuers };
