/** Several issuers, each with a policy and keys of its own: `require('fowharimu/issuers')`. */
import { Asking, Claims, Moment, Report, Token, Validator } from './index';
import { RemoteKeys } from './remote';

/** What judges the tokens of one issuer. */
export type Judging = Validator | RemoteKeys;

/**
 * A map from issuers to what judges their tokens. A token is judged by what stands under the issuer that it names, which nobody has verified by then: so
 * each has a policy whose `issuers` is exactly the one under which it stands, and checks it again. A token that names no issuer, or one that isn't here,
 * is refused as `Issuer`. What is no token under the policy with the least `limit` is refused as that one refuses it; of those with the same limit the
 * first issuer in ascending byte order counts.
 */
export class Issuers {
  /** Throws TypeError for an empty map, for what is neither, and where a policy doesn't name exactly the issuer. */
  constructor(validators: Map<string, Judging> | { [issuer: string]: Judging });
  /** As `validate` of what stands under the token's issuer. Rejects with ClaimsRefused, whose fault is `Issuer`, where there is nothing. */
  validate(token: Token, how?: Moment | Asking): Promise<Claims>;
  /** As `judge` of what stands under the token's issuer. Where there is nothing, the report has that refusal and nothing else. */
  judge(token: Token, now?: Moment): Promise<Report>;
  /** Closes what stands under each issuer. It may be called twice. Later calls reject with Closed. */
  close(): void;
}
