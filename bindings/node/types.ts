// What a caller in TypeScript writes; it is compiled, and not run.
import { Access, AccessRefused, AnotherLibrary, Certificate, ClaimsRefused, Denied, FormRefused, Holder, KeysRefused, NotExpected, NotHeld, NotTaken, Nonces, Once, PolicyRefused, Proof, Proofs, Report, TokenRefused, UNBOUND, Validator, implementation, textMember } from '.';
import { Issuers } from './issuers';
import { RemoteKeys } from './remote';

const validator: Validator = new Validator({ algs: ['HS256'] }, '{"keys":[]}', { remember: { tokens: 1000, octets: 4096 } });
const claims: unknown = validator.validate('a.b.c').iss;
const text: string = validator.validateText(new Uint8Array(3), 7n);
const report: Report = validator.judge('a.b.c', 1300819379);
const refusal: TokenRefused | null = report.refusal;
if (refusal instanceof FormRefused && refusal.part === 'payload') console.log(refusal.signature, refusal.fault);
if (refusal instanceof ClaimsRefused) console.log(refusal.claim?.length, refusal.message);
for (const it of report.states) if (it.state === 'verified') console.log(it.key);
for (const it of report.tries) console.log(it.cost + it.key);
const remembered: boolean = report.remembered;
const access: Access = new Access({ scopes: ['read'], claims: { email_verified: [true] } });
const granted: unknown = validator.validate('a.b.c', { access, now: 7 }).iss ?? validator.validateText('a.b.c', { access });
const denied: unknown = granted;
if (denied instanceof Denied && denied.fault === 'ScopeMissing') console.log(denied.scope?.length, denied.claim, denied.scopes.join(' '));
if (denied instanceof AccessRefused) console.log(denied.fault, denied.member?.length, access.scopes.length);
access.close();
const token: string = validator.issue({ iss: 'joe' }, { alg: 'HS384', form: 'flattened', key: 0, typ: 'at+jwt' });
const kid: unknown = validator.unverifiedHeader(token, 0)?.kid;
for (const it of [PolicyRefused, KeysRefused, AnotherLibrary]) console.log(it.name, claims, text, kid, remembered);
const issuer: string | undefined = validator.issuer ?? textMember('{}', 'issuer');
const named: string | null | undefined = validator.unverifiedIssuer('a.b.c');
const issuers: Issuers = new Issuers(new Map([['a', validator]]));
void issuers.validate('a.b.c', { access }).then((it: unknown) => console.log(it, issuer, named, validator.limit + 1, !validator.isPublic));
void RemoteKeys.open({ algs: ['RS256'] }, 'https://issuer.example/keys').then((keys) => new Issuers({ a: keys, b: validator }).judge('a.b.c', 7));
const once: Once = new Once(1000);
for (const it of [once, 1000]) new Validator({ algs: ['HS256'] }, '{"keys":[]}', { once: it }).close();
void RemoteKeys.open({ algs: ['RS256'] }, 'https://issuer.example/keys', { once });
if (denied instanceof NotTaken && denied.fault === 'Seen') once.close();
const login: unknown = validator.validate('a.b.c', { expected: { nonce: 'n' }, hashes: { at_hash: new Uint8Array(3) } }).nonce;
void issuers.validate('a.b.c', { access, expected: { '/a/b': 'c' }, now: 7 }).then((it: unknown) => console.log(it, login));
if (denied instanceof NotExpected && denied.fault === 'Absent') console.log(denied.claim.length);
const proofs: Proofs = new Proofs({ typ: 'dpop+jwt' }, once);
const holders: Holder[] = [new Proof(proofs, { dpop: 'a.b.c', method: 'GET', uri: 'https://a/', nonce: 'n' }), new Certificate(new Uint8Array(3)), UNBOUND];
for (const holder of holders) void issuers.validate('a.b.c', { holder }).then(() => validator.validate('a.b.c', { holder, expected: {}, access, now: 7 }));
if (denied instanceof NotHeld) console.log(denied.fault);
new Proofs('{}', 1000).close();
const nonces: Nonces = new Nonces(new Uint8Array(32), 60);
const nonce: string = nonces.at() + new Nonces(new Uint8Array(32)).at(0);
new Proof(proofs, { dpop: 'a.b.c', method: 'GET', uri: 'https://a/', nonces });
validator.close();
// @ts-expect-error: a proof is no Proofs
validator.validate('a.b.c', { holder: proofs });
// @ts-expect-error: no holder
validator.validate('a.b.c', { holder: undefined });
// @ts-expect-error: a certificate is octets
new Certificate('a');
// @ts-expect-error: no memory
new Proofs('{}');
// @ts-expect-error: the URI is lacking
new Proof(proofs, { dpop: 'a.b.c', method: 'GET' });
// @ts-expect-error: what is expected is a text
validator.validate('a.b.c', { expected: { nonce: undefined } });
// @ts-expect-error: no number of tokens
new Once('1000');
// @ts-expect-error: neither a validator nor keys by URL
new Issuers({ a: 7 });
// @ts-expect-error: a token is a text or octets
validator.validate(7);
// @ts-expect-error: HMAC alone is issued
validator.issue({}, { alg: 'RS256' });
// @ts-expect-error: a misspelled rule
validator.validate('a.b.c', { acess: access });
// @ts-expect-error: an object without a rule
validator.validate('a.b.c', { now: 7 });

const which: 'native' | 'wasm' = implementation;
void which;
