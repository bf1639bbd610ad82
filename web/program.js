"use strict";
// What a run of the program `robots_audit` needs, in the page (host.js) and in Node (bindings/node/audit/command.js), of which one follows
// this file. A run has a memory of its own, so it begins as a new process does. What the program calls is what it calls of a C library
// elsewhere. Pointers and lengths have 64 bits, so they are of the type BigInt.

/** A run with these arguments and this environment, a Map; names and values are bytes, the names as texts of numbers. */
class Run {
  constructor(words, environment) {
    Object.assign(this, { words, environment, errno: 0, memory: null });
  }

  /** The memory, which may be another buffer after each call. */
  get bytes() { return new Uint8Array(this.memory.buffer); }

  /** Copies what fits, and returns the length, or -2 if it doesn't fit, or -1 if there is nothing. */
  put(text, to, room) {
    if (!text) return -1n;
    this.bytes.set(text.subarray(0, Number(room)), Number(to));
    return text.length > room ? -2n : BigInt(text.length);
  }

  /** The bytes from there on, up to a NUL. */
  nameAt(start) {
    const { bytes } = this, at = Number(start);
    return bytes.slice(at, bytes.indexOf(0, at));
  }

  /** The calls about arguments, the environment and the number of the last error. */
  get ownCalls() {
    return {
      rattle_arg: (index, to, room) => this.put(this.words[Number(index)], to, room),
      rattle_env: (name, to, room) => this.put(this.environment.get(this.nameAt(name).join()), to, room),
      rattle_env_at: () => -1n,
      rattle_errno: () => this.errno,
      rattle_set_errno: value => { this.errno = value; },
      __sysv_signal: () => 0n,
    };
  }

  /** Runs a compiled module with these calls about files, and returns the exit status. A limit is in bytes of memory. */
  start(module, fileCalls, limit) {
    const { exports } = new WebAssembly.Instance(module, { env: { ...this.ownCalls, ...fileCalls } });
    if (limit) exports.limit_memory(limit);
    this.memory = exports.memory;
    return exports.main(this.words.length, 0n);
  }
}
