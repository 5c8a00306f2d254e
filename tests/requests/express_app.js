'use strict';
// The application of the cases, over Express: express_app.js FOLDER
const fs = require('node:fs');
const path = require('node:path');
const express = require('express');
const { Access, Nonces, Once, Proofs, Validator } = require('../../bindings/node');
const { guard } = require('../../bindings/node/guard');

const read = (name) => fs.readFileSync(path.join(process.argv[2], name));
const open = () => new Validator(read('policy.json'), read('keys.json'));
const validator = open(), closed = open();
closed.close();
const app = express();
app.use('/scope', guard(validator, { access: new Access(read('scope.json')) }));
app.use('/role', guard(validator, { access: new Access(read('role.json')) }));
app.use('/hidden', guard(validator, { hidesToken: true }));
app.use('/closed', guard(closed));
const proofs = new Proofs(read('proofs.json'), new Once(1000, { share: 1000, opened: 0 })), origin = 'https://api.example';
const nonces = new Nonces(read('nonce.secret'), 3600);
app.use('/unbound', guard(validator));
app.use('/dpop', guard(validator, { dpop: { proofs, origin } }));
app.use('/dpop-only', guard(validator, { dpop: { proofs, origin, only: true } }));
app.use('/dpop-nonce', guard(validator, { dpop: { proofs, origin, nonces } }));
app.use('/dpop-scope', guard(validator, { access: new Access(read('scope.json')), dpop: { proofs, origin } }));
app.use('/dpop-hidden', guard(validator, { dpop: { proofs, origin }, hidesToken: true }));
app.all('/', guard(validator));
app.use((request, response) => {
  response.json({ claims: request.auth, shown: [request.get('Authorization'), request.get('DPoP')].some((it) => it !== undefined) || request.rawHeaders.some((it) => /^(authorization|dpop)$/i.test(it)) });
});
const server = app.listen(0, '127.0.0.1', () => console.log(`listening on 127.0.0.1:${server.address().port}`));
