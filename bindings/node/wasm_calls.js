'use strict';
/**
 * The functions of addon.c and around.c, by the same names, over the module for WebAssembly (`make wasm`): what index.js, renewal.js, requests.js, urls.js and
 * remote.js of the package call. It needs WebAssembly with BigInt, and nothing else of its host. What a function checks of its arguments, addon.c checks too.
 *
 * What a call is handed is copied into the module's memory, and what it leaves there is freed, which wipes it, before the call returns, but for the octets of a
 * validator's last token. Addresses and lengths are BigInts at the border, and numbers of 32 bits come back signed. The memory is another ArrayBuffer after each
 * growth, so its views are looked up again behind each call.
 */

const OK = 0, REFUSED = 1, OUT_OF_MEMORY = 3, TOO_SHORT = 5, DENIED = 7, UNNAMED = 8, NOT_EXPECTED = 9;
const NUMBERS = 8, MOST_NAME = 65536, NONCE_LEN = 43, MOST_BESIDE = 64;
/** FOW_ABI of the header for which this file was written. */
const MADE_FOR = 5;

/** Of a typed array its kind and its length as the engine has them, whatever members somebody gave it. */
const typed = Object.getOwnPropertyDescriptors(Object.getPrototypeOf(Uint8Array.prototype));
const kindOf = (it) => typed[Symbol.toStringTag].get.call(it), lengthOf = (it) => typed.length.get.call(it);

function mistake(what) {
  return Object.assign(new TypeError(what), { code: 'ERR_INVALID_ARG_TYPE' });
}

function lackMemory() {
  return Object.assign(new Error('an allocation was refused'), { code: 'ERR_MEMORY_ALLOCATION_FAILED' });
}

/** Whether a surrogate stands alone in a text. */
function hasLone(text) {
  if (typeof text.isWellFormed === 'function') return !text.isWellFormed();
  return /[\ud800-\udbff](?![\udc00-\udfff])|(?<![\ud800-\udbff])[\udc00-\udfff]/.test(text);
}

/** The functions, over an instance of the module. */
function callsOver(instance) {
  const it = instance.exports, memory = it.memory;
  const encoder = new TextEncoder(), decoder = new TextDecoder('utf-8', { ignoreBOM: true });
  let bytes = new Uint8Array(memory.buffer), view = new DataView(memory.buffer);

  /** The views of the memory, which may have grown. */
  const look = () => {
    if (bytes.buffer !== memory.buffer) {
      bytes = new Uint8Array(memory.buffer);
      view = new DataView(memory.buffer);
    }
  };

  /** An address of so many octets, at least one, that are to be freed. */
  function room(size) {
    const at = Number(it.fow_malloc(BigInt(Math.max(size, 1))));
    if (at === 0) throw lackMemory();
    look();
    return at;
  }
  const free = (at) => it.fow_free(BigInt(at));

  /** The octets of a text in which a surrogate stands alone: each code unit for itself, which the library refuses. */
  function putUnits(text, at) {
    let to = at;
    for (let i = 0; i < text.length; i++) {
      const unit = text.charCodeAt(i);
      if (unit < 0x80) bytes[to++] = unit;
      else if (unit < 0x800) { bytes[to++] = 0xc0 | unit >> 6; bytes[to++] = 0x80 | unit & 0x3f; }
      else { bytes[to++] = 0xe0 | unit >> 12; bytes[to++] = 0x80 | unit >> 6 & 0x3f; bytes[to++] = 0x80 | unit & 0x3f; }
    }
    return to - at;
  }

  /** The octets of a text or of a Uint8Array, as [address, length]. */
  function octets(value) {
    if (typeof value === 'string') {
      if (hasLone(value)) {
        const at = room(3 * value.length);
        return [at, putUnits(value, at)];
      }
      // (most texts are of ASCII: room for as many octets as it has characters, and more only where it has others)
      const at = room(value.length), { read, written } = encoder.encodeInto(value, bytes.subarray(at, at + value.length));
      if (read === value.length) return [at, written];
      free(at);
      const more = room(3 * value.length);
      return [more, encoder.encodeInto(value, bytes.subarray(more, more + 3 * value.length)).written];
    }
    if (kindOf(value) !== 'Uint8Array') throw mistake('a string or a Uint8Array is wanted');
    const length = lengthOf(value), at = room(length);
    // (one whose buffer was detached has no octets, and can't be read)
    if (length > 0) bytes.subarray(at, at + length).set(value);
    return [at, length];
  }

  /** Calls with the addresses and lengths of texts, and frees them. */
  function with_(values, call) {
    const given = [];
    try {
      for (const value of values) given.push(octets(value));
      return call(...given.flatMap(([at, len]) => [BigInt(at), BigInt(len)]));
    } finally {
      for (const [at] of given) free(at);
    }
  }

  /** Characters of one octet each; another one is 255, which no token, realm, scope or URL may have. */
  const latin = (text) => {
    if (typeof text !== 'string') throw mistake('a text is needed');
    return Uint8Array.from({ length: text.length }, (_, i) => Math.min(text.charCodeAt(i), 255));
  };
  const latinOf = (at, len) => {
    let text = '';
    for (let i = 0; i < len; i++) text += String.fromCharCode(bytes[at + i]);
    return text;
  };

  /** What a call writes into so much room, by an address of it and of a count; `done` is told the status and [address, length]. */
  function writing(size, call, done) {
    const out = room(size), count = room(8);
    try {
      view.setBigUint64(count, 0n, true);
      const status = call(BigInt(out), BigInt(size), BigInt(count)) >>> 0;
      look();
      return done(status, out, Number(view.getBigUint64(count, true)));
    } finally {
      free(out);
      free(count);
    }
  }
  const utf8 = (at, len) => decoder.decode(bytes.subarray(at, at + len));

  /** A text that was written, and undefined where none was. */
  const text = (status, at, len) => {
    if (status === OUT_OF_MEMORY) throw lackMemory();
    return status === OK ? utf8(at, len) : undefined;
  };

  /** A call with room for one struct, whose address is given to `read` too. */
  function struct(size, call, read) {
    const at = room(size);
    try {
      bytes.fill(0, at, at + size);
      const status = call(BigInt(at));
      look();
      return read(at, status);
    } finally {
      free(at);
    }
  }
  const u32 = (at) => view.getUint32(at, true), u64 = (at) => Number(view.getBigUint64(at, true));

  const moment = (now) => {
    if (typeof now === 'bigint' && BigInt.asIntN(64, now) === now) return now;
    if (typeof now === 'number') return BigInt(Math.trunc(now));
    throw mistake('a moment is wanted');
  };
  const small = (value) => (typeof value === 'number' ? value >>> 0 : 0);

  /** Something that the module holds, in 16 octets of its memory. */
  class Held {
    constructor(close) {
      this.at = BigInt(room(16));
      bytes.fill(0, Number(this.at), Number(this.at) + 16);
      this.token = [0, 0];
      const state = this.state = { at: this.at, close, token: this.token };
      left.register(this, state, this);
    }
  }
  function closeState({ at, close, token }) {
    close(at);
    if (token[0] !== 0) free(token[0]);
    token[0] = token[1] = 0;
  }
  const left = new FinalizationRegistry((state) => {
    closeState(state);
    free(Number(state.at));
  });
  class HeldValidator extends Held {}
  class HeldRule extends Held {}
  class HeldOnce extends Held {}
  class HeldProofs extends Held {}
  const wanted = (kind, what) => (value) => {
    if (value instanceof kind) return value;
    throw mistake(what);
  };
  const validatorOf = wanted(HeldValidator, 'a validator is wanted'), ruleOf = wanted(HeldRule, 'an access rule is wanted');
  const onceOf = wanted(HeldOnce, 'a memory of tokens is wanted'), proofsOf = wanted(HeldProofs, 'a policy for proofs is wanted');

  /** Opens something; what is refused is answered by the number of its fault. */
  function opened(kind, close, open) {
    const held = new kind(close);
    const [status, fault] = struct(4, (at) => open(held.at, at), (at, said) => [said >>> 0, u32(at)]);
    if (status === OK) return held;
    closeState(held.state);
    left.unregister(held);
    free(Number(held.at));
    if (status === REFUSED) return fault;
    throw lackMemory();
  }

  const reportOf = (out) => {
    if (!(out instanceof Float64Array) || out.length !== NUMBERS) throw mistake('a report is wanted');
    return out;
  };
  const putReport = (out, at) => {
    out[0] = u32(at + 16); out[1] = u32(at + 20); out[2] = u32(at + 24); out[3] = u32(at + 28);
    out[4] = u32(at + 32); out[5] = u32(at + 36); out[6] = u64(at); out[7] = u64(at + 8);
  };
  const reportRoom = BigInt(room(40));
  /** A fow_possession that holds nothing. */
  const NO_PROOF = BigInt(room(16));
  bytes.fill(0, Number(NO_PROOF), Number(NO_PROOF) + 16);

  /** A text that a call writes of a validator, in so much room. */
  const told = (size, call) => writing(size, call, text);

  const said = (status, unmet) => {
    if (status === OK) return 0;
    if (status === NOT_EXPECTED) return unmet;
    if (status === REFUSED) throw mistake("what is expected, and the claim's name, have to be texts without lone surrogates");
    throw status === OUT_OF_MEMORY ? lackMemory() : new Error('no token is accepted');
  };
  const taken = (status, what, at) => {
    if (status === OK || status === REFUSED) return u32(at);
    throw status === OUT_OF_MEMORY ? lackMemory() : new Error(`no ${what} is accepted, or no memory of tokens is open`);
  };

  /** A whole number of 64 bits: of one that is less than 0, or none, 0, and of a greater one the greatest. */
  const whole = (value) => (!(value >= 1) ? 0n : value >= 2 ** 64 ? 2n ** 64n - 1n : BigInt(Math.trunc(value)));

  /** A call on the numbers of a renewal, which are a BigUint64Array of the caller's. */
  function renewal(state, call) {
    if (!(state instanceof BigUint64Array) || state.length !== 15) throw mistake('a renewal is needed');
    const at = room(120);
    try {
      for (let i = 0; i < 15; i++) view.setBigUint64(at + 8 * i, state[i], true);
      const result = call(BigInt(at));
      look();
      for (let i = 0; i < 15; i++) state[i] = view.getBigUint64(at + 8 * i, true);
      return result;
    } finally {
      free(at);
    }
  }
  const written = (status, at, len) => {
    if (status === OUT_OF_MEMORY) throw lackMemory();
    return status === OK ? latinOf(at, len) : status;
  };
  const byTwo = (call) => (first, second) => with_([latin(first), latin(second)], (a, an, b, bn) =>
    writing(Number(an + bn) + 1, (out, size, count) => call(a, an, b, bn, out, size, count), written));

  const cString = (at) => {
    look();
    let end = Number(at);
    while (bytes[end] !== 0) end++;
    return utf8(Number(at), end - Number(at));
  };

  return {
    madeFor: MADE_FOR,
    loaded: it.fow_abi(),
    version: cString(it.fow_version()),

    open: (policy, keys) => with_([policy, keys], (p, pn, k, kn) => opened(HeldValidator, it.fow_close, (at, fault) => it.fow_open(at, p, pn, k, kn, fault))),
    close: (held) => closeState(validatorOf(held).state),
    remember(held, tokens, most) {
      if (it.fow_remember(validatorOf(held).at, BigInt(tokens), BigInt(most)) !== OK) throw lackMemory();
    },
    remembered: (held) => (it.fow_remembered(validatorOf(held).at) & 1) === 1,
    judge(held, token, now, out) {
      const by = validatorOf(held), report = reportOf(out), at = moment(now), given = octets(token);
      if (by.token[0] !== 0) free(by.token[0]);
      [by.token[0], by.token[1]] = given;
      const verdict = it.fow_judge(by.at, BigInt(given[0]), BigInt(given[1]), at, reportRoom) >>> 0;
      look();
      putReport(report, Number(reportRoom));
      return verdict;
    },
    payload(held) {
      const by = validatorOf(held);
      if (by.token[0] === 0) return undefined;
      return told(by.token[1] + 1, (out, size, count) => it.fow_accepted_payload(by.at, out, size, count));
    },
    header: (held, token, signature) => with_([token], (t, n) =>
      told(Number(n) + 1, (out, size, count) => it.fow_unverified_header(validatorOf(held).at, t, n, small(signature), out, size, count))),
    named: (held, token) => with_([token], (t, n) => writing(Number(n) + 1, (out, size, count) =>
      it.fow_unverified_issuer(validatorOf(held).at, t, n, out, size, count), (status, at, len) => (status === UNNAMED ? null : text(status, at, len)))),
    soleIssuer: (held) => told(MOST_NAME, (out, size, count) => it.fow_sole_issuer(validatorOf(held).at, out, size, count)),
    tokenLimit: (held) => struct(4, (at) => it.fow_token_limit(validatorOf(held).at, at), (at, status) => (status === OK ? u32(at) : undefined)),
    isPublic: (held) => (it.fow_documents_are_public(validatorOf(held).at) & 1) === 1,
    textMember: (document, name) => with_([document, name], (d, dn, m, mn) =>
      told(Number(dn) + 1, (out, size, count) => it.fow_text_member(d, dn, m, mn, out, size, count))),
    issue(held, alg, form, key, typ, claims, out) {
      const by = validatorOf(held), report = reportOf(out);
      return with_([typ, claims], (t, tn, c, cn) => {
        for (let size = 2 * Number(cn) + 2 * Number(tn) + 1024; ; size *= 2) {
          const [status, token] = writing(size, (at, most, count) => it.fow_issue(by.at, small(alg), small(form), small(key), t, tn, c, cn, at, most, count, reportRoom),
            (said_, at, len) => [said_, said_ === TOO_SHORT ? undefined : text(said_, at, len)]);
          if (status === TOO_SHORT) continue;
          putReport(report, Number(reportRoom));
          report[0] = status;
          return token;
        }
      });
    },
    state: (held, n) => struct(12, (at) => it.fow_state_of(validatorOf(held).at, small(n), at),
      (at, status) => (status === OK ? [u32(at), u32(at + 4), u32(at + 8)] : undefined)),
    tried: (held, n) => struct(16, (at) => it.fow_try_of(validatorOf(held).at, BigInt(small(n)), at),
      (at, status) => (status === OK ? [u32(at + 8), u32(at + 12), u64(at)] : undefined)),
    refusedClaim: (held) => told(MOST_NAME, (out, size, count) => it.fow_refused_claim(validatorOf(held).at, out, size, count)),
    refusedMember: (policy) => with_([policy], (p, n) => told(Number(n) + 1, (out, size, count) => it.fow_refused_member(p, n, out, size, count))),
    faultName: (fault) => cString(it.fow_fault_name(small(fault))),

    openAccess: (rule) => with_([rule], (r, n) => opened(HeldRule, it.fow_access_close, (at, fault) => it.fow_access_open(at, r, n, fault))),
    closeAccess: (rule) => closeState(ruleOf(rule).state),
    refusedInAccess: (rule) => with_([rule], (r, n) => told(Number(n) + 1, (out, size, count) => it.fow_access_refused(r, n, out, size, count))),
    scope: (rule, n) => told(MOST_NAME, (out, size, count) => it.fow_access_scope(ruleOf(rule).at, small(n), out, size, count)),
    denied: (held, rule) => struct(4, (at) => it.fow_denied(validatorOf(held).at, ruleOf(rule).at, at), (at, status) => {
      if (status === OK) return 0;
      if (status === DENIED) return u32(at);
      throw new Error('no token is accepted, or no access rule is open');
    }),
    deniedName: (held, rule) => told(MOST_NAME, (out, size, count) => it.fow_denied_name(validatorOf(held).at, ruleOf(rule).at, out, size, count)),
    expectText: (held, claim, given) => with_([claim, given], (c, cn, t, tn) =>
      struct(4, (at) => it.fow_expect_text(validatorOf(held).at, c, cn, t, tn, at), (at, status) => said(status, u32(at)))),
    expectHalfHash: (held, claim, given, signature) => with_([claim, given], (c, cn, t, tn) => {
      const by = validatorOf(held);
      return struct(4, (at) => it.fow_expect_half_hash(by.at, BigInt(by.token[0]), BigInt(by.token[1]), small(signature), c, cn, t, tn, at),
        (at, status) => said(status, u32(at)));
    }),

    openOnce: (tokens, share, at_) => opened(HeldOnce, it.fow_once_close, (at) => it.fow_once_open(at, BigInt(tokens), BigInt(share), moment(at_))),
    closeOnce: (once) => closeState(onceOf(once).state),
    taken: (once, held, now) => struct(4, (at) => it.fow_once_take(onceOf(once).at, validatorOf(held).at, moment(now), at), (at, status) => taken(status, 'token', at)),

    openProofs: (policy) => with_([policy], (p, n) => opened(HeldProofs, it.fow_possession_close, (at, fault) => it.fow_possession_open(at, p, n, fault))),
    closeProofs: (proofs) => closeState(proofsOf(proofs).state),
    proofFault(proofs, held, proof, method, uri, nonce, now) {
      const by = proofsOf(proofs), beside = validatorOf(held), at = moment(now);
      return with_([proof, method, uri, nonce], (...given) => struct(4, (fault) =>
        it.fow_possession_judge(by.at, beside.at, ...given, BigInt(beside.token[0] || Number(reportRoom)), BigInt(beside.token[1]), at, fault), (fault, status) => {
        if (status === OK) return 0;
        if (status === REFUSED) return u32(fault);
        throw status === OUT_OF_MEMORY ? lackMemory() : new Error('no token is accepted, or no policy for proofs is open');
      }));
    },
    proofFresh: (proofs, secret, period, now) => {
      if (!ArrayBuffer.isView(secret)) throw mistake('a secret and a moment are wanted');
      return with_([secret], (s, n) => it.fow_possession_fresh(proofsOf(proofs).at, s, n, small(period), moment(now)));
    },
    proofAlgs: (proofs, size) => writing(size, (out, most, count) => it.fow_possession_algs(proofsOf(proofs).at, out, most, count), (status, at, len) => {
      if (status === OK) return latinOf(at, len);
      throw new Error('no policy for proofs is open');
    }),
    proofTaken: (once, proofs, now) => struct(4, (at) => it.fow_possession_take(proofsOf(proofs).at, onceOf(once).at, moment(now), at), (at, status) => taken(status, 'proof', at)),
    shown: (held, proofs, der) => with_([der], (d, n) => struct(8, (at) =>
      it.fow_shown(validatorOf(held).at, proofs === null ? NO_PROOF : proofsOf(proofs).at, d, n, at, at + 4n), (at, status) => {
      if (status === OK || status === REFUSED) return u32(status === OK ? at : at + 4);
      throw status === OUT_OF_MEMORY ? lackMemory() : new Error('no token is accepted');
    })),

    credentials: (schemes, value) => with_([latin(value)], (v, n) => struct(24, (at) => it.fow_credentials(small(schemes), v, n, at, at + 8n, at + 16n),
      (at, status) => [status, u32(at), u64(at + 8), u64(at + 16)])),
    replyTo: (schemes, shown, outcome) => struct(12, (at) => it.fow_reply_to(small(schemes), small(shown), small(outcome), at), (at) => [u32(at), u32(at + 4), u32(at + 8)]),
    challenge: (scheme, kind, realm, scopes, algs) => with_([latin(realm), latin(scopes), latin(algs)], (...given) =>
      writing(MOST_BESIDE + realm.length + scopes.length + algs.length, (out, size, count) => it.fow_challenge(small(scheme), small(kind), ...given, out, size, count),
        (status, at, len) => {
          if (status === OK) return latinOf(at, len);
          throw mistake("a realm, a scope or an algorithm can't be quoted");
        })),
    quotable: (given) => with_([latin(given)], (t, n) => (it.fow_quotable(t, n) & 1) === 1),
    nonce: (secret, period, now) => {
      if (!ArrayBuffer.isView(secret)) throw mistake('a secret is needed');
      return with_([secret], (s, n) => writing(NONCE_LEN, (out, size, count) => it.fow_nonce(s, n, small(period), moment(now), out, size, count),
        (status, at, len) => (status === OK ? latinOf(at, len) : undefined)));
    },
    proofOutcome: (status, fault) => it.fow_proof_outcome(small(status), small(fault)),
    takenOutcome: (ofProof, status, taken_) => it.fow_taken_outcome(small(ofProof), small(status), small(taken_)),

    renewalBegin: (state, ...times) => renewal(state, (at) => void it.fow_renewal_begin(at, ...times.map(whole))),
    renewalAsk: (state, now, asker, keys) => renewal(state, (at) => struct(40, (answer) => it.fow_renewal_ask(at, whole(now), whole(asker), whole(keys), answer),
      (answer) => [u64(answer), u64(answer + 8), u64(answer + 16), u64(answer + 24), Number(BigInt.asUintN(64, it.fow_renewal_quiet_for(at)))])),
    renewalTook: (state, now, ticket) => renewal(state, (at) => (it.fow_renewal_took(at, whole(now), whole(ticket)) & 1) === 1),
    renewalFailed: (state, now, ticket) => renewal(state, (at) => (it.fow_renewal_failed(at, whole(now), whole(ticket)) & 1) === 1),
    renewalWait: (state, now, ticket, name) => renewal(state, (at) => (it.fow_renewal_wait(at, whole(now), whole(ticket), whole(name)) & 1) === 1),

    urlOf: (url, allowsHttp) => with_([latin(url)], (u, n) => struct(32, (at) => it.fow_url_of(u, n, allowsHttp ? 1 : 0, at),
      (at, status) => (status === OK ? [u32(at), u32(at + 4), u64(at + 8), u64(at + 16), u64(at + 24)] : undefined))),
    redirected: byTwo(it.fow_redirected),
    keysUrl: byTwo(it.fow_keys_url),
    metadataUrl: (asked, issuer) => with_([latin(issuer)], (i, n) =>
      writing(issuer.length + MOST_BESIDE, (out, size, count) => it.fow_metadata_url(small(asked), i, n, out, size, count), written)),
    nextStep: (asked, status, redirections) => struct(8, (at) => it.fow_next_step(small(asked), small(status), small(redirections), at), (at) => [u32(at), u32(at + 4)]),
  };
}

/** The functions, of a module in a Uint8Array, which imports nothing. */
const callsOf = (octets) => callsOver(new WebAssembly.Instance(new WebAssembly.Module(octets), {}));

module.exports = { callsOf };
