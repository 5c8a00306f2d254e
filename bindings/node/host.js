'use strict';
/**
 * Runs the program, compiled for WebAssembly, over a system that the caller has: npx fowharimu and the page do. Each run has a memory of its own. The program asks for
 * what C's library has on Linux: words, files, the clock, random octets; nothing else is there.
 */

/** The numbers that errors have on Linux, as the program tells them apart. */
const NUMBERS = { EPERM: 1, ENOENT: 2, EINTR: 4, EIO: 5, EBADF: 9, EAGAIN: 11, EACCES: 13, ENOTDIR: 20, EISDIR: 21, EINVAL: 22, EPIPE: 32, ELOOP: 40 };

/**
 * Runs it on words, and returns its status. Of `system` these are called, which throw an error with one of these codes where they fail: read(fd, most) returns a Uint8Array,
 * empty at the end; write(fd, octets) returns how many were written; open(path) returns a number from 3 on; close(fd); isTerminal(fd); now() returns milliseconds;
 * random(octets) fills them.
 */
function run(module, words, system) {
  const encoder = new TextEncoder(), decoder = new TextDecoder();
  const given = ['fowharimu', ...words].map((it) => encoder.encode(it));
  let memory, errno = 0;
  const octetsAt = (at, count) => new Uint8Array(memory.buffer, Number(at), Number(count));

  /** What a call of C returns: that of `call`, or -1 with the number of its error. */
  const answered = (call, failed = -1) => {
    try {
      return call();
    } catch (error) {
      if (typeof error.code !== 'string') throw error;
      errno = Object.hasOwn(NUMBERS, error.code) ? NUMBERS[error.code] : NUMBERS.EIO;
      return failed;
    }
  };
  const failure = (code) => Object.assign(new Error(code), { code });
  const textAt = (at) => {
    const from = new Uint8Array(memory.buffer, Number(at));
    return decoder.decode(from.subarray(0, from.indexOf(0)));
  };
  const write = (fd, at, count) => answered(() => BigInt(system.write(fd, octetsAt(at, count).slice())), -1n);
  const env = {
    read: (fd, at, most) => answered(() => {
      const octets = system.read(fd, Number(most));
      octetsAt(at, most).set(octets);
      return BigInt(octets.length);
    }, -1n),
    write,
    rattle_write_parts(fd, isSocket, ...parts) {
      let count = 0n;
      for (let i = 0; i < parts.length; i += 2) {
        const written = write(fd, parts[i], parts[i + 1]);
        if (written < 0n) return count > 0n ? count : written;
        count += written;
        if (written < parts[i + 1]) break;
      }
      return count;
    },
    open: (path) => answered(() => system.open(textAt(path))),
    close: (fd) => answered(() => (system.close(fd), 0)),
    isatty: (fd) => (system.isTerminal(fd) ? 1 : 0),
    fcntl: () => 0,
    posix_fadvise: () => 0,
    // (how long a file is, is a hint alone)
    statx: () => answered(() => { throw failure('ENOENT'); }),
    clock_gettime(clock, at) {
      const to = new DataView(memory.buffer), now = system.now();
      to.setBigInt64(Number(at), BigInt(Math.floor(now / 1000)), true);
      to.setBigInt64(Number(at) + 8, BigInt(Math.floor(now % 1000)) * 1000000n, true);
      return 0;
    },
    getentropy: (at, count) => answered(() => (system.random(octetsAt(at, count)), 0)),
    rattle_errno: () => errno,
    rattle_set_errno: (to) => { errno = to; },
    rattle_arg_count: () => BigInt(given.length),
    rattle_arg(i, at, room) {
      if (i >= BigInt(given.length)) return -1n;
      const word = given[Number(i)];
      if (BigInt(word.length) > room) return -2n;
      octetsAt(at, word.length).set(word);
      return BigInt(word.length);
    },
    rattle_env: () => -1n,
    rattle_env_at: () => -1n,
  };
  const lacking = (name) => () => { throw new Error(`the host has no ${name}`); };
  const imports = Object.fromEntries(WebAssembly.Module.imports(module).map(({ name }) => [name, Object.hasOwn(env, name) ? env[name] : lacking(name)]));
  const instance = new WebAssembly.Instance(module, { env: imports });
  memory = instance.exports.memory;
  return instance.exports.main(0, 0n);
}

if (typeof module === 'object') module.exports = { run };
