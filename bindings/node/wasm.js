'use strict';
/** The library as WebAssembly, for systems and processors that the addon isn't built for: slower, with the same answers. */
const { readFileSync } = require('node:fs'), { join } = require('node:path');
const { callsOf } = require('./wasm_calls.js');

module.exports = { ...callsOf(readFileSync(join(__dirname, 'fowharimu.wasm'))), implementation: 'wasm' };
