/** Key sets that stand at a URL, by the rules of docs/REMOTE-KEYS.md: `require('fowharimu/remote')`. */
import { Asking, Claims, Document, FowharimuError, Moment, Opening, Report, Token, TokenRefused } from './index';

/** How keys are fetched: a plain object. Times are in milliseconds, from 0 on; one that is undefined is as without it. */
export interface Remote extends Opening {
  /** The age at which keys are fetched again, in the background: ten minutes without it. */
  refreshAfter?: number;
  /** The least time between two fetches, but for `refresh`: thirty seconds without it. */
  cooldown?: number;
  /** The age at which keys are too old: an hour without it. */
  maxAge?: number;
  /** Of a whole fetch, below 2 ** 31: five seconds without it. */
  timeout?: number;
  /** Whether `http:` is taken too. */
  allowHttp?: boolean;
  /** The certificates of the authorities that are trusted, in PEM, and not empty: those that Node trusts without it. */
  ca?: string | Uint8Array | (string | Uint8Array)[];
  /** Called after each fetch, with the URL without its query, how many octets were had, and why it failed, if it did. What it throws is a warning of the process. */
  onFetch?: (url: string, octets: number, error: Error | null) => void;
}

/** The keys can't be fetched, and none were before. `cause` is why. */
export class KeysUnavailable extends FowharimuError {
  readonly cause: Error;
}
/** The keys are too old, and newer ones can't be fetched: nothing is said of the token. A service answers 503 to this. */
export class KeysTooOld extends TokenRefused {}

/**
 * A policy, and a key set at a URL, which is fetched at once, and again as docs/REMOTE-KEYS.md says: in the background; where a token is refused for want of
 * a key or by a bad signature, at most once a cool-down. Where that fails, the keys stay until they are too old.
 */
export class RemoteKeys {
  /**
   * Fetches a key set. Rejects with TypeError for a URL that isn't https, has no host, or has a name or a password in it, for a policy with an HMAC
   * algorithm, and for an option that is none; with RangeError for a time that is none; with KeysUnavailable where the keys can't be fetched; and with
   * what `new Validator` throws. A policy that is changed later doesn't change what is judged.
   */
  static open(policy: Document, url: string, options?: Remote): Promise<RemoteKeys>;
  /**
   * Fetches the keys of an issuer, whose URL its metadata tell (OpenID Connect Discovery 1.0, section 4; where there is none, RFC 8414, section 3). The
   * metadata are read once, under the same rules: their `issuer` has to be that very text, and the policy's `issuers` exactly that one. Rejects as
   * `open` does.
   */
  static discover(policy: Document, issuer: string, options?: Remote): Promise<RemoteKeys>;
  private constructor();
  /** Why the last fetch failed; null where it didn't. */
  readonly error: Error | null;
  /**
   * As `Validator.validate`. Rejects with KeysTooOld too. A token that is refused as `NoKey` or `BadSignature` waits for a fetch: at most four do, one for
   * each `kid`, and the others are refused at once.
   */
  validate(token: Token, how?: Moment | Asking): Promise<Claims>;
  /** As `Validator.judge`. Where the keys are too old and none can be fetched, the report has the refusal KeysTooOld and nothing else. */
  judge(token: Token, now?: Moment): Promise<Report>;
  /** As `Validator.issuer`. */
  readonly issuer: string | undefined;
  /** As `Validator.limit`. */
  readonly limit: number;
  /** As `Validator.unverifiedIssuer`, however old the keys are. */
  unverifiedIssuer(token: Token): string | null | undefined;
  /** Fetches the key set now, whatever the cool-down, and tells whether that went well. Where a fetch is under way it waits for that one. */
  refresh(): Promise<boolean>;
  /** Frees what is held, and drops a fetch that is under way. It may be called twice. Later calls reject with Closed. */
  close(): void;
}
