/** What is shown beside the program's own words: of each registered claim and member of a header what it is. */
const CLAIMS = {
  iss: 'who issued it (RFC 7519)', sub: 'whom it speaks of', aud: 'whom it is meant for', exp: 'when it expires', nbf: 'from when it counts', iat: 'when it was issued', jti: 'its own name',
  nonce: 'what the login sent, to be compared', azp: 'the client that it was issued to', scope: 'what is granted', scp: 'what is granted', client_id: 'the client', auth_time: 'when the user logged in',
  acr: 'how the user was authenticated', amr: 'by which means the user was authenticated', at_hash: 'half a hash of the access token', c_hash: 'half a hash of the code', sid: 'the session', cnf: 'the key or certificate of its holder (RFC 7800)',
  roles: 'roles', groups: 'groups', realm_access: 'roles of the realm (Keycloak)', resource_access: 'roles of clients (Keycloak)', email: 'an address', email_verified: 'whether the address was verified',
  name: 'a name', preferred_username: 'the name of an account', token_use: 'kind of token (Cognito)', tid: 'the tenant (Entra)', oid: 'the object of the user (Entra)', ver: 'a version', typ: 'kind of token (Keycloak)', events: 'the events that it tells (RFC 8417)',
};
const HEADERS = {
  alg: 'the algorithm', typ: 'kind of token', kid: 'the name of the key', cty: 'kind of payload', crit: 'what the reader has to understand', jku: 'a URL of keys, which nobody should fetch', x5u: 'a URL of a certificate, which nobody should fetch',
  jwk: 'a key that the token brings along', x5c: 'a certificate that the token brings along', x5t: 'the digest of a certificate', 'x5t#S256': 'the digest of a certificate', b64: 'whether the payload is encoded (RFC 7797)', enc: 'of encrypted tokens',
};
