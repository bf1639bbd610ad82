// A worker of the page, which runs the program once for each message (see program.js, which comes before this).

const MOST = 2 ** 30; // bytes of memory
const NO_SUCH_FILE = 2; // errno

/** The calls about files. Those that were opened have their numbers as positions in `opened`; 0 is standard input. */
function fileCalls(run, input, files, written) {
  const named = new Map(files.map(([name, content]) => [name.join(), content]));
  const opened = [{ content: input, at: 0 }, null, null];
  return {
    isatty: () => 0,
    open(name) {
      const content = named.get(run.nameAt(name).join());
      if (content) return opened.push({ content, at: 0 }) - 1;
      run.errno = NO_SUCH_FILE;
      return -1;
    },
    close: () => 0,
    read(number, to, room) {
      const file = opened[number], chunk = file.content.subarray(file.at, file.at + Number(room));
      file.at += chunk.length;
      return run.put(chunk, to, room);
    },
    write(number, from, length) {
      written[number].push(run.bytes.slice(Number(from), Number(from) + Number(length)));
      return length;
    },
  };
}

/** What a run of the program ends with and writes, for these arguments, standard input, and pairs of a name and a file, all of bytes. */
async function runProgram(module, words, input, files) {
  const run = new Run(words, new Map()), written = [null, [], []];
  const status = run.start(module, fileCalls(run, input, files, written), MOST);
  const [out, err] = await Promise.all(written.slice(1).map(chunks => new Blob(chunks).arrayBuffer()));
  return { status, out: new Uint8Array(out), err: new Uint8Array(err) };
}

onmessage = async ({ data }) => {
  try { postMessage(await runProgram(...data)); } catch (error) { postMessage({ failed: String(error) }); }
};
