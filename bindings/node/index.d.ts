/**
 * Validates JSON Web Tokens (RFC 7519) by a library that is proved correct. Signatures by RSA, ECDSA and Ed25519 are verified by its proved
 * verifiers; one by Ed448 is refused as `BadSignature`.
 */

/**
 * Octets, their text, or what JSON.stringify makes a text of: of plain objects and arrays alone. What it would leave out, as a member that is
 * undefined, or write as `{}`, as a map, throws TypeError, and a number that isn't exact RangeError: a policy or an access rule would ask for less.
 */
export type Document = string | Uint8Array | object;
/** A token: its text, or its octets. */
export type Token = string | Uint8Array;
/** Seconds since 1970-01-01T00:00:00Z: a whole number that is exact, or a bigint of 64 bits. */
export type Moment = number | bigint;
export type Claims = { [name: string]: unknown };
export type State = 'barred' | 'no key' | 'bad signature' | 'verified' | 'not reached' | 'stopped';

/** What became of a signature: `fault` where it is barred, `key` where that key verified it. */
export interface SignatureState {
  readonly state: State;
  readonly fault: string | undefined;
  readonly key: number | undefined;
}
/** The try of a key on a signature, and the octets that it fed to HMAC: 0 for a public key. */
export interface Try {
  readonly signature: number;
  readonly key: number;
  readonly cost: number;
}
/** All that is said of a token. `refusal` is why it isn't accepted, and null where it is. */
export interface Report {
  readonly accepted: boolean;
  readonly refusal: TokenRefused | null;
  /** The number, from 0, of the signature that was verified, or that the refusal speaks of. */
  readonly signature: number;
  /** The number, from 0, of the key that verified it, among the readable keys of the set. */
  readonly key: number;
  /** The octets that were fed to HMAC. */
  readonly work: number;
  readonly states: SignatureState[];
  readonly tries: Try[];
  /** The token was remembered: `work` and `tries` are those of the judging that accepted it, and nothing was paid now. */
  readonly remembered: boolean;
}
/** How claims are issued: without more HS256, compact, by key 0, with no `typ`. */
export interface Issuing {
  key?: number;
  alg?: 'HS256' | 'HS384' | 'HS512';
  form?: 'compact' | 'general' | 'flattened';
  typ?: string;
}
/** How many accepted tokens are remembered, none longer than so many octets: the least used goes first. */
export interface Remember {
  tokens: number;
  octets: number;
}
/** How a validator is opened: a plain object, as all options are, with no other member. */
export interface Opening {
  /**
   * Which tokens are remembered: none without it. One that comes again is found by all its octets, and only its claims are looked at. Accepted
   * tokens lie in memory until they go, and aren't wiped.
   */
  remember?: Remember;
  /**
   * Each token is let in once: `validate` takes what is accepted and meets the access rule, by issuer and `jti`, until its `exp` and the leeway, and throws
   * NotTaken for what was taken, has no `jti` or no `exp`, or finds no room. A number is how many tokens are held at most: as many as are accepted within
   * the lifetime of one. An Once is a memory that validators share. `now` is then the clock's moment: one far in the future closes the memory. `judge` takes
   * nothing. A member that is undefined throws TypeError, since nothing would be taken.
   */
  once?: Once | number;
}

/** Texts, or octets, under the names of claims. A name that begins with `/` is a JSON Pointer (RFC 6901), as in an access rule. */
export type ByClaim = { readonly [claim: string]: string | Uint8Array };
/** What a call may ask of a token. The rule is held first, then `expected` and `hashes`, each in its order, then `holder`. */
interface Asked {
  /** The moment at which the token is judged: the clock's without it. */
  now?: Moment;
  /** The access rule that its claims have to meet. */
  access?: Access;
  /** What claims have to be, octet by octet, as the `nonce` that was sent with a login. A list that holds the text isn't the text. */
  expected?: ByClaim;
  /**
   * That of which claims have to be the half of the hash, by the algorithm of the signature that was verified: `at_hash` of the access token beside an ID
   * token, `c_hash` of the code (OpenID Connect Core 1.0, sections 3.1.3.8 and 3.3.2.11).
   */
  hashes?: ByClaim;
  /**
   * What is asked of the token's sender (docs/POSSESSION.md): a proof of the key that it is bound to, or that it is bound to a certificate, or to nothing. Without it nothing is
   * asked, of a token that is bound neither. A proof is taken last.
   */
  holder?: Holder;
}
/** What a call asks of a token: at least a rule, an expectation or a holder, and what is named is there. Else it throws TypeError, so that none is left out by mistake. */
export type Asking = Asked &
  (Required<Pick<Asked, 'access'>> | Required<Pick<Asked, 'expected'>> | Required<Pick<Asked, 'hashes'>> | Required<Pick<Asked, 'holder'>>);

/** The request that a proof comes with: a plain object, as all options are, with no other member. */
export interface Showing {
  /** The value of the request's only header `DPoP`. (Where a request has several, `headers.dpop` of Node has all of them, with commas: that is no proof.) */
  dpop: string | Uint8Array;
  /** The request's method, by case. */
  method: string | Uint8Array;
  /** What the client sees, with scheme and host, which behind a proxy come from the configuration. Query and fragment aren't looked at. */
  uri: string | Uint8Array;
  /** The nonce that was asked for. One that is empty throws RangeError, and one that is undefined TypeError: where none was asked for, it is left out. */
  nonce?: string | Uint8Array;
  /** Those of which the proof has to have one, in place of `nonce`. One that has none is `OtherNonce`. */
  nonces?: Nonces;
}
/** A proof of possession (DPoP, RFC 9449): the token's sender holds the key that the token is bound to. */
export class Proof {
  #private;
  /** Throws TypeError and RangeError for what isn't there or is of another kind. What is handed in is copied. */
  constructor(proofs: Proofs, request: Showing);
}
/** The certificate of the client, in DER, as whoever ended TLS has it: the token is bound to it, by `x5t#S256` in its `cnf` (RFC 8705, section 3). */
export class Certificate {
  #private;
  /** Throws TypeError for what isn't octets. They are copied. */
  constructor(der: Uint8Array);
}
declare const unbound: unique symbol;
/** The kind of UNBOUND. */
export interface Unbound {
  readonly [unbound]: never;
}
/** The token is bound to nothing, as a service asks that takes tokens of bearers: else whoever stole it could use it (RFC 9449, section 7.2). */
export const UNBOUND: Unbound;
export type Holder = Proof | Certificate | Unbound;

/** What this package throws of its own. */
export class FowharimuError extends Error {}
/** Another library was loaded than this package was made for. */
export class AnotherLibrary extends FowharimuError {
  readonly madeFor: number;
  readonly loaded: number;
  readonly version: string;
}
/** The validator is closed. */
export class Closed extends FowharimuError {}
/** The policy is refused; `member` is the name of the member that the fault speaks of. */
export class PolicyRefused extends FowharimuError {
  readonly fault: string;
  readonly member: string | undefined;
}
export class KeysRefused extends FowharimuError {
  readonly fault: string;
}
/** Nothing is issued; `signature` is the number of the signature that the fault speaks of, `claim` the name of the claim. */
export class IssueRefused extends FowharimuError {
  readonly fault: string;
  readonly signature: number;
  readonly claim: string | undefined;
}
/** The access rule is refused; `member` is the name of the member, or of the claim, that the fault speaks of. */
export class AccessRefused extends FowharimuError {
  readonly fault: string;
  readonly member: string | undefined;
}
/**
 * The token is accepted, and its claims don't meet the access rule: a service answers 403 to this, and 401 to TokenRefused. `scope` is the scope
 * that isn't granted, or else `claim` the name of the claim. `scopes` are all that the rule asks for: joined by spaces, the `scope` of a challenge
 * that says insufficient_scope (RFC 6750, section 3.1).
 */
export class Denied extends FowharimuError {
  readonly fault:
    | 'ScopeMissing'
    | 'ClaimMissing'
    | 'ClaimNotAllowed'
    | 'ClaimPresent'
    | 'ClaimHasOther'
    | 'ClaimNotObject'
    | 'ClaimNotDate'
    | 'ClaimLater'
    | 'ClaimTooOld'
    | 'ClaimNotAscii';
  readonly scope: string | undefined;
  readonly claim: string | undefined;
  readonly scopes: readonly string[];
}
/** The token isn't accepted. `fault` is the name that the program `jwt` prints, such as `Expired`. */
export class TokenRefused extends FowharimuError {
  readonly fault: string;
}
/** The token has more octets than the policy's `limit`. */
export class TooLong extends TokenRefused {}
/** The octets are no signed token. */
export class FormRefused extends TokenRefused {
  readonly part: 'payload' | 'protected' | 'signature' | undefined;
  readonly signature: number;
}
/** The policy's `work` or `max_calls` was reached before this key was tried on this signature. */
export class CeilingReached extends TokenRefused {
  readonly signature: number;
  readonly key: number;
}
/** The signature of this number isn't verified. */
export class SignatureRefused extends TokenRefused {
  readonly signature: number;
}
/** The claims are refused; `claim` is the name of the claim that the fault speaks of. */
export class ClaimsRefused extends TokenRefused {
  readonly claim: string | undefined;
}
/** The token is accepted, and isn't the one that was expected: `claim` is the first that isn't as it has to be. It is absent, or `Other`: another text, or no text. */
export class NotExpected extends TokenRefused {
  readonly fault: 'Absent' | 'Other';
  readonly claim: string;
}
/**
 * The token is accepted, and its sender hasn't shown that the key is theirs that it is bound to. `fault` is why the proof is none for this request, such as `OtherUri`
 * (docs/POSSESSION.md); `OtherCertificate`: it isn't bound to this certificate; `Bound`: it is bound, and came as a bearer's.
 */
export class NotHeld extends TokenRefused {}
/**
 * The token is accepted, and it, or its proof, counts once. `Seen`: it was taken before; `Late`: its `exp` and the leeway have passed by the greatest moment that was judged at;
 * `Full`: as many tokens are held as there is room for; `NoId`, `NoEnd`: it has no `jti`, or no `exp`; `Ahead`: its `iat` is further ahead of now than the leeway.
 */
export class NotTaken extends TokenRefused {
  readonly fault: 'Seen' | 'Late' | 'Full' | 'NoId' | 'NoEnd' | 'Ahead';
}

/**
 * An access rule: which scopes and which values of claims an accepted token has to have (docs/ACCESS.md). Any validator of the same worker may be
 * handed it. What is never closed is freed with the object.
 */
export class Access {
  /**
   * A JSON text, or what is written as it. Throws AccessRefused, AnotherLibrary, TypeError and RangeError for what is no Document, and an Error where
   * memory is refused.
   */
  constructor(rule: Document);
  /** The scopes that have to be granted, in the order of the rule. */
  readonly scopes: readonly string[];
  /** Frees what is held. It may be called twice. A later `validate` with it throws Closed. */
  close(): void;
}

/**
 * A memory of tokens that count once, by their issuer and `jti`. Validators of the same worker may share it, whatever their policies. A token is let
 * in once a memory, so once a worker: several workers, processes or machines need one store that they share. What is never closed is freed with the object.
 */
export class Once {
  /**
   * A memory for so many tokens, from 1 to 4,294,967,295, each of which takes some 190 octets, 310 with a `sub`. Of one owner, an issuer with a `sub`, it takes `share` at
   * most; a sixteenth without one. What was issued before `opened` is refused, by `iat` and the leeway, and so is a token without `iat`: in seconds since 1970;
   * the second after this one without one, so that a restart refuses some tokens and lets none in twice. With 0 it lets in each token once more. Throws RangeError,
   * TypeError for a name that it hasn't, AnotherLibrary, and an Error where memory is refused.
   */
  constructor(tokens: number, how?: { share?: number; opened?: number | bigint });
  /** Frees what is held, and forgets what was taken. It may be called twice. Validators over it throw Closed then. */
  close(): void;
}

/**
 * The nonces that a service asks of proofs (RFC 9449, section 8), by a secret and the time: each is good for the period in which it is given and for the next one. Nothing is kept of
 * them, and processes that share a secret ask for the same.
 */
export class Nonces {
  /** Of at least 32 random bytes, with a period in seconds: 60 where none is said. Throws RangeError for a shorter secret and for no period, and TypeError for what is no Uint8Array. */
  constructor(secret: Uint8Array, period?: number);
  /** The nonce of a moment, in seconds since 1970-01-01T00:00:00Z, or of now: the value of a header `DPoP-Nonce`. */
  at(now?: number | bigint): string;
}
/**
 * A policy for proofs of possession (docs/POSSESSION.md), and the memory in which each is taken that is accepted, since it counts once (RFC 9449, section 11.1). Validators of the
 * same worker may share it. What is never closed is freed with the object.
 */
export class Proofs {
  /**
   * The policy is a JSON text, or what is written as it. The memory is for so many proofs, as many as are accepted within `max_age` and the leeway; or it is an Once, which
   * others may share. Throws PolicyRefused, AnotherLibrary, TypeError and RangeError for what is no Document or no memory, and an Error where memory is refused.
   */
  constructor(policy: Document, once: Once | number);
  /** Frees what is held. It may be called twice. A later `validate` with a proof throws Closed. What was taken stays in the memory. */
  close(): void;
}

/**
 * A policy and a key set, by which tokens are judged. A call takes microseconds, and blocks: `max_calls` in the policy bounds it. Each worker
 * opens its own. What is never closed is freed with the object.
 */
export class Validator {
  /**
   * Both are JSON texts, as the program `jwt` takes them, or what is written as them. Throws PolicyRefused, KeysRefused,
   * AnotherLibrary, TypeError and RangeError for what is no Document, and an Error where memory is refused.
   */
  constructor(policy: Document, keys: Document, how?: Opening);
  /**
   * The claims of a token that is accepted at a moment; without one, at the clock's. Whole numbers past 2^53 lose digits by JSON.parse:
   * `validateText` has them. With an access rule, only claims that meet it are given, with
   * expectations those that are as expected, and with a holder those whose sender holds the key. Throws TokenRefused, NotExpected, NotHeld and NotTaken among them, Denied,
   * Closed, TypeError also for an object that asks for none of these, or names what isn't there, and for more arguments, RangeError for a moment that isn't one, and an Error
   * where memory is refused.
   */
  validate(token: Token, how?: Moment | Asking): Claims;
  /** The same claims as the JSON text that the token has. */
  validateText(token: Token, how?: Moment | Asking): string;
  /** All that is said of a token: a refusal stands in the report. Throws as `validate` does without an access rule, TokenRefused aside. */
  judge(token: Token, now?: Moment): Report;
  /** The protected header of the signature of this number; undefined where there is none. Anyone may have written it. */
  unverifiedHeader(token: Token, signature?: number): { [name: string]: unknown } | undefined;
  /** The issuer that the policy allows; undefined where it allows any, or several. */
  readonly issuer: string | undefined;
  /** The greatest number of octets of a token that the policy takes. */
  readonly limit: number;
  /** Whether everyone may read the keys: no algorithm of the policy is HMAC, and no key a shared secret (RFC 8725, section 2.1). */
  readonly isPublic: boolean;
  /** The issuer that a token names: null where it names none, undefined where the octets are no token under the policy. Anyone may have written it. */
  unverifiedIssuer(token: Token): string | null | undefined;
  /** The claims as a token, signed by HMAC. Throws IssueRefused, Closed, TypeError and RangeError. */
  issue(claims: Document, how?: Issuing): string;
  /** Frees what is held. It may be called twice. Later calls throw Closed. */
  close(): void;
}

/**
 * The text of a member of a JSON object, such as `jwks_uri` of an issuer's metadata; undefined where the document is no JSON object, a name stands twice
 * in it, or it has no text of this name. Throws an Error where memory is refused.
 */
export function textMember(document: string | Uint8Array, name: string): string | undefined;

/** Which implementation runs: `native`, the addon of this system and processor, or `wasm`, the library as WebAssembly, which is slower and returns the same. */
export const implementation: 'native' | 'wasm';
