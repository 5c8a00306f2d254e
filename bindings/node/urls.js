'use strict';
/** From which URLs keys and metadata are fetched, and what follows on an answer: the library decides, by fow_url_of and the calls beside it. */

const { native } = require('./index.js');

/** enum fow_asked */
const ASKED = { keys: 0, openId: 1, oauth: 2 };
/** enum fow_step */
const STEP = { take: 1, follow: 2, askOAuth: 3, tooOften: 4 };
/** Of enum fow_status. */
const ABSENT = 6;

/** A URL by its parts, as a request takes them; undefined where nothing may be fetched from it. */
function urlOf(text, allowHttp) {
  const parts = native.urlOf(text, allowHttp);
  if (parts === undefined) return undefined;
  const [https, port, host, hostEnd, target] = parts;
  const path = text.slice(target);
  return {
    text,
    isHttps: https === 1,
    // (an address has its brackets in a URL alone)
    hostname: text.slice(host, hostEnd).replace(/^\[|\]$/g, ''),
    port,
    path: path.startsWith('/') ? path : `/${path}`,
  };
}

/** The URL to which a redirection leads; undefined where it isn't followed. */
function redirected(url, location) {
  const text = native.redirected(url.text, location);
  return typeof text === 'string' ? urlOf(text, true) : undefined;
}

/** The URL of the metadata of an issuer; undefined where it can have none. */
function metadataUrl(asked, issuer) {
  const text = native.metadataUrl(asked, issuer);
  return typeof text === 'string' ? urlOf(text, true) : undefined;
}

/** The URL of an issuer's keys, as its metadata tell it. */
function keysUrl(metadata, issuer) {
  const text = native.keysUrl(metadata.toString('latin1'), issuer);
  if (typeof text === 'string') return text;
  throw new Error(text === ABSENT ? 'the metadata have no jwks_uri' : 'the metadata are of another issuer');
}

/** What follows on an answer of this status, where so many redirections were followed, and how many octets of it are taken at most. */
function nextStep(asked, status, followed) {
  const [step, most] = native.nextStep(asked, status, followed);
  return { step, most };
}

module.exports = { ASKED, STEP, keysUrl, metadataUrl, nextStep, redirected, urlOf };
