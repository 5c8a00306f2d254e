'use strict';
/**
 * Leaves in Object.prototype what a careless merge of a stranger's JSON may leave there: the options of Node's client by which a request would reach another
 * place, or check less of whom it reaches. tests/remote/run has keys fetched with it.
 */
Object.assign(Object.prototype, {
  auth: 'planted:planted', ciphers: 'planted', defaultPort: 1, family: 4, host: 'planted.invalid', hostname: 'planted.invalid', insecureHTTPParser: true,
  kid: 'planted', localAddress: '192.0.2.1', localPort: 1, location: 'https://planted.invalid', maxHeaderSize: 1, method: 'POST', minVersion: 'TLSv1',
  path: '/planted', port: 1, protocol: 'planted:', rejectUnauthorized: false, secureProtocol: 'planted', servername: 'elsewhere.example', session: 'planted', socketPath: '/planted',
});
