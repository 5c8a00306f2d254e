'use strict';
// The application of the cases, over Node's http alone: http_app.js FOLDER
const fs = require('node:fs');
const http = require('node:http');
const path = require('node:path');
const { Access, Nonces, Once, Proofs, Validator } = require('../../bindings/node');
const { guard } = require('../../bindings/node/guard');

const read = (name) => fs.readFileSync(path.join(process.argv[2], name));
const open = () => new Validator(read('policy.json'), read('keys.json'));
const validator = open(), closed = open();
closed.close();
const guards = {
  '/scope': guard(validator, { access: new Access(read('scope.json')) }),
  '/role': guard(validator, { access: new Access(read('role.json')) }),
  '/hidden': guard(validator, { hidesToken: true }),
  '/closed': guard(closed),
};
const proofs = new Proofs(read('proofs.json'), new Once(1000, { share: 1000, opened: 0 })), origin = 'https://api.example';
const nonces = new Nonces(read('nonce.secret'), 3600);
Object.assign(guards, {
  '/unbound': guard(validator),
  '/dpop': guard(validator, { dpop: { proofs, origin } }),
  '/dpop-only': guard(validator, { dpop: { proofs, origin, only: true } }),
  '/dpop-nonce': guard(validator, { dpop: { proofs, origin, nonces } }),
  '/dpop-scope': guard(validator, { access: new Access(read('scope.json')), dpop: { proofs, origin } }),
  '/dpop-hidden': guard(validator, { dpop: { proofs, origin }, hidesToken: true }),
});
const plain = guard(validator);

function answer(request, response) {
  response.end(JSON.stringify({ claims: request.auth, shown: 'authorization' in request.headers || 'dpop' in request.headers }));
}

const server = http.createServer((request, response) => {
  const asked = guards[request.url.split('?')[0]] ?? plain;
  asked(request, response, (error) => (error ? response.writeHead(500).end() : answer(request, response)));
});
server.listen(0, '127.0.0.1', () => console.log(`listening on 127.0.0.1:${server.address().port}`));
