// The command for Node, which runs the program over Node's files (see web/program.js, which comes before this).

const fs = require("node:fs");
const path = require("node:path");
const tty = require("node:tty");

// errno of Linux, which the program knows, by Node's names of errors; those that Windows alone has are here too
const ERRNO = {
  EPERM: 1, ENOENT: 2, EINTR: 4, EIO: 5, ENXIO: 6, EBADF: 9, EAGAIN: 11, ENOMEM: 12, EACCES: 13, EBUSY: 16, EEXIST: 17, ENODEV: 19,
  ENOTDIR: 20, EISDIR: 21, EINVAL: 22, ENFILE: 23, EMFILE: 24, EFBIG: 27, ENOSPC: 28, ESPIPE: 29, EROFS: 30, EPIPE: 32, ENAMETOOLONG: 36,
  ELOOP: 40, EOVERFLOW: 75, EDQUOT: 122, EOF: 32, UNKNOWN: 5, ECONNRESET: 32,
};
const PAUSE = 10; // milliseconds, while a pipe is empty or full
const pause = () => { Atomics.wait(new Int32Array(new SharedArrayBuffer(4)), 0, 0, PAUSE); };

/** Does this again as long as a pipe that doesn't wait is empty or full. */
function repeated(action) {
  for (;;) {
    try { return action(); } catch (error) { if (error.code !== "EAGAIN") throw error; }
    pause();
  }
}

/** The name of a file for Node: bytes are a name but on Windows, where a name is a text, and the empty device has another one. */
function nameFor(bytes, platform = process.platform) {
  const name = Buffer.from(bytes);
  if (platform !== "win32") return name;
  const text = name.toString();
  return text === "/dev/null" ? "\\\\.\\nul" : path.win32.toNamespacedPath(text);
}

/** The calls about files, where these are the numbers of standard input, standard output and standard error. */
function fileCalls(run, [input, output, error]) {
  const numbers = new Map([[0, input], [1, output], [2, error]]);
  /** What an action on a file returns, or what a call of C returns after an error. */
  const tried = (failed, action) => {
    try { return action(); } catch (thrown) {
      if (!thrown.code) throw thrown;
      run.errno = ERRNO[thrown.code] ?? ERRNO.EIO;
      return failed;
    }
  };
  const part = (start, length) => run.bytes.subarray(Number(start), Number(start) + Number(length));
  return {
    isatty: number => tty.isatty(numbers.get(number)) ? 1 : 0,
    // the program opens files to read them
    open: name => tried(-1, () => {
      const opened = fs.openSync(nameFor(run.nameAt(name)), "r");
      numbers.set(opened + 3, opened);
      return opened + 3;
    }),
    close: number => tried(-1, () => {
      if (number > 2) fs.closeSync(numbers.get(number));
      numbers.delete(number);
      return 0;
    }),
    read: (number, to, room) => tried(-1n, () => {
      try {
        return BigInt(repeated(() => fs.readSync(numbers.get(number), part(to, room), 0, Number(room), null)));
      } catch (thrown) {
        if (thrown.code === "EOF") return 0n; // the end of a pipe on Windows
        throw thrown;
      }
    }),
    write: (number, from, length) => tried(-1n, () => BigInt(repeated(() => fs.writeSync(numbers.get(number), part(from, length))))),
  };
}

/** The arguments as bytes. Node has them as texts; one that isn't UTF-8 is taken from where Linux has it. */
function bytesOf(words) {
  if (words.some(word => word.includes("\ufffd")) && process.platform === "linux") {
    const all = fs.readFileSync("/proc/self/cmdline"), found = [];
    for (let at = 0, end; (end = all.indexOf(0, at)) >= 0; at = end + 1) found.push(new Uint8Array(all.subarray(at, end)));
    return found.slice(found.length - words.length);
  }
  return words.map(word => new TextEncoder().encode(word));
}

/** What the program knows of the environment. */
function environmentOf(variables) {
  const encoder = new TextEncoder(), named = ["NO_COLOR", "TERM"].filter(name => variables[name] !== undefined);
  return new Map(named.map(name => [encoder.encode(name).join(), encoder.encode(variables[name])]));
}

const compiled = () => new WebAssembly.Module(fs.readFileSync(path.join(__dirname, "robots_audit.wasm")));

/** Runs the program with these arguments, after its name, and returns the exit status. */
function audit(words, { module = compiled(), variables = process.env, files = [0, 1, 2] } = {}) {
  const run = new Run([new TextEncoder().encode("robots_audit"), ...words], environmentOf(variables));
  return run.start(module, fileCalls(run, files));
}

module.exports = { audit, bytesOf, compiled, fileCalls, nameFor };
