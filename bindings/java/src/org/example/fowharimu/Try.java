package org.example.fowharimu;

/**
 * The try of a key on a signature.
 *
 * @param signature the signature's number, from 0
 * @param key the key's number, from 0, among the readable keys of the set
 * @param cost the octets that were fed to HMAC for it; 0 for a public key
 */
public record Try(int signature, int key, long cost) {}
