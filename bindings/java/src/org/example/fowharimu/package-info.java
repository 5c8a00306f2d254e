/**
 * Validates JSON Web Tokens (RFC 7519) by a library that is proved correct. Signatures by RSA, ECDSA and Ed25519 are verified by its proved
 * verifiers; one by Ed448 is refused as {@code BadSignature}. {@link org.example.fowharimu.Validator} is where to begin.
 */
package org.example.fowharimu;
