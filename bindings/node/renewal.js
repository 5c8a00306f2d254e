'use strict';
/** When keys by URL are fetched, until when they are used, and who waits for a fetch: the library decides, by fow_renewal_ask and the calls beside it. */

const { createHash } = require('node:crypto');
const { native } = require('./index.js');

/** How many numbers fow_renewal has. */
const NUMBERS = 15;
/** enum fow_fetch */
const NO_FETCH = 0, BEGINS = 1;
/** enum fow_asker */
const ASKER = { token: 0, refused: 1, owner: 2, waited: 3 };

/** A number of a `kid`, under which its token waits. */
const nameOf = (kid) => createHash('sha256').update(kid).digest().readUIntBE(0, 6);

/** The state of keys by URL, by the monotonic clock. Times are milliseconds. */
class Renewal {
  #state = new BigUint64Array(NUMBERS);

  constructor({ refreshAfter, cooldown, maxAge, timeout }) {
    // (a fetch has its whole timeout)
    native.renewalBegin(this.#state, refreshAfter, cooldown, maxAge, Math.ceil(timeout), performance.now());
  }

  /** Which keys are to be used, as their ticket, until when nobody need ask, and whether a fetch begins or is under way; for a token that was refused, by the
   * keys of this ticket. */
  ask(asker, keys = 0) {
    const now = performance.now();
    const [hasKeys, itsKeys, fetch, ticket, quietFor] = native.renewalAsk(this.#state, now, asker, keys);
    return {
      keys: hasKeys === 0 ? undefined : itsKeys,
      until: Math.floor(now) + quietFor,
      begins: fetch === BEGINS ? ticket : undefined,
      isUnderWay: fetch !== NO_FETCH,
    };
  }

  /** Whether the keys of that fetch count; else they are to be dropped. */
  took(ticket) {
    return native.renewalTook(this.#state, performance.now(), ticket);
  }

  /** That fetch gave no keys. */
  failed(ticket) {
    native.renewalFailed(this.#state, performance.now(), ticket);
  }

  /** Whether a token of this `kid` may wait for that fetch. */
  wait(ticket, kid) {
    return native.renewalWait(this.#state, performance.now(), ticket, nameOf(kid));
  }
}

module.exports = { ASKER, Renewal };
