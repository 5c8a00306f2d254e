/** Lets HTTP requests through where their token is accepted (RFC 6750), and whoever sends it holds its key (RFC 9449): for Express, Connect, and whatever else takes `(req, res, next)`. */
import type { IncomingMessage, ServerResponse } from 'node:http';
import type { Access, Claims, Denied, Nonces, Proofs, TokenRefused, Validator } from '.';
import type { Issuers } from './issuers';
import type { RemoteKeys } from './remote';

/** A request that was let through has its claims as `auth`. */
export interface Guarded extends IncomingMessage {
  auth?: Claims;
}
/** How a guard takes tokens that are bound to a key, with a proof in each request (DPoP, RFC 9449). */
export interface GuardingDPoP {
  /** The policy for proofs, and the memory in which they are taken. */
  proofs: Proofs;
  /** The scheme and the host that clients see, as `https://api.example`, with no path. Nothing of a request is taken for it, `Host` and `X-Forwarded-Host` neither. */
  origin: string;
  /** Whether no bearer's token is taken. Else one is, unless it is bound. */
  only?: boolean;
  /** Those that each proof has to have one of. A client that has none is told, by 401 with `DPoP-Nonce`. */
  nonces?: Nonces;
}
export interface Guarding {
  /** An access rule that the claims have to meet: where they don't, the answer is 403. */
  access?: Access;
  /** The realm that a request without a token is told: `jwt` without this. */
  realm?: string;
  /** Whether what is behind isn't shown `Authorization` and `DPoP`. */
  hidesToken?: boolean;
  /** Takes tokens of the scheme DPoP too, or alone, with proofs; the path of a proof's URI is that of `originalUrl`, where there is one, or `url`. */
  dpop?: GuardingDPoP;
  /** Is told why a token isn't taken, before the answer; not of what is no token by its letters (RFC 6750, section 2.1), nor of a request without one. */
  onRefusal?: (error: TokenRefused | Denied, request: IncomingMessage) => void;
}
/**
 * Calls `next()` where the token behind the scheme Bearer is accepted now. Else the answer is 400, 401 or 403, with `WWW-Authenticate` (RFC 6750,
 * section 3), 429 where the owner of what counts once has used up its share, or 503 where keys by URL are too old or there is no room for what counts once. A bearer's token that is
 * bound is refused. Where nothing is said of the token, for want of memory or since the validator is closed, it is `next(error)`. Throws TypeError for a
 * realm that a quoted string can't have, for a name that `Guarding` hasn't, and for an `access`, a `dpop` or `nonces` that is none: nothing would be asked for.
 *
 * A validator of your own has to heed the second argument of `validate`: it holds the access rule, and who has to hold the token's key. One that leaves it out lets both through unasked.
 */
export function guard(validator: Validator | RemoteKeys | Issuers, how?: Guarding): (request: Guarded, response: ServerResponse, next: (error?: unknown) => void) => void;
