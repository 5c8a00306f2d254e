'use strict';
/** The token in `Authorization`, and what a request is answered: the library decides, by fow_credentials, fow_reply_to and fow_challenge. */

const { native } = require('./index.js');

/** FOW_OK, FOW_ABSENT */
const OK = 0, ABSENT = 6;
/** enum fow_scheme */
const SCHEME = { none: 0, bearer: 1, dpop: 2 };
/** enum fow_outcome */
const OUTCOME = {
  unanswered: 0, admitted: 1, several: 2, noToken: 3, malformed: 4, notAccepted: 5, scopeMissing: 6, notGranted: 7, keysTooOld: 8, proofRefused: 9, nonceWanted: 10,
};
/** Of enum fow_challenge_kind: none, and that which asks for a nonce. */
const NO_CHALLENGE = 0, USE_DPOP_NONCE = 7;

/** The token in the value of the one header Authorization, by a scheme that is taken, with that scheme; where it carries none, the outcome. */
function tokenIn(schemes, value) {
  const [status, scheme, from, to] = native.credentials(schemes, value);
  if (status === OK) return { token: value.slice(from, to), scheme, outcome: OUTCOME.admitted };
  return { token: undefined, scheme, outcome: status === ABSENT ? OUTCOME.noToken : OUTCOME.malformed };
}

/** What a request is answered where these schemes are taken and this one was shown: a status, the values of WWW-Authenticate, and whether a nonce goes with them. What is quoted, the
 * realm, the scopes with a space between two and the algorithms of proofs, can be. */
function replyTo(schemes, shown, outcome, { realm, scopes, algs }) {
  const [status, bearer, dpop] = native.replyTo(schemes, shown, outcome);
  const kinds = [[SCHEME.bearer, bearer], [SCHEME.dpop, dpop]].filter(([, kind]) => kind !== NO_CHALLENGE);
  return { status, challenges: kinds.map(([scheme, kind]) => native.challenge(scheme, kind, realm, scopes, algs)), wantsNonce: dpop === USE_DPOP_NONCE };
}

/** Whether a realm can be quoted as it is. */
const isQuotable = (text) => native.quotable(text);

module.exports = { SCHEME, OUTCOME, tokenIn, replyTo, isQuotable };
