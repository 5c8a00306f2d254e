#!/usr/bin/env node
'use strict';
/** The command, on any system that has Node: the program compiled for WebAssembly, over this process's own files. */
const fs = require('node:fs'), { randomFillSync } = require('node:crypto'), { join } = require('node:path'), { isatty } = require('node:tty');
const { run } = require('./host.js');

/** Calls again where a pipe isn't ready, as it is where its other end doesn't wait. */
function waiting(call) {
  for (;;) {
    try {
      return call();
    } catch (error) {
      if (error.code !== 'EAGAIN') throw error;
      Atomics.wait(new Int32Array(new SharedArrayBuffer(4)), 0, 0, 10);
    }
  }
}

const system = {
  read(fd, most) {
    const room = new Uint8Array(Math.min(most, 1 << 20));
    try {
      return room.subarray(0, waiting(() => fs.readSync(fd, room)));
    } catch (error) {
      // (on Windows a pipe ends so)
      if (error.code === 'EOF') return room.subarray(0, 0);
      throw error;
    }
  },
  write: (fd, octets) => waiting(() => fs.writeSync(fd, octets)),
  open: (path) => fs.openSync(path, 'r'),
  close: (fd) => fs.closeSync(fd),
  isTerminal: isatty,
  now: Date.now,
  random: randomFillSync,
};
const program = new WebAssembly.Module(fs.readFileSync(join(__dirname, 'program.wasm')));
process.exitCode = run(program, process.argv.slice(2), system);
