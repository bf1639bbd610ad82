// For bundlers, browsers and others without Node's files: the module comes from the caller, or else is fetched.
import library from "./core.mjs";

/** The file beside this one. Node's fetch() takes no files, and a bundler may have left it out. */
async function fetched() {
  const url = new URL("./robots.wasm", import.meta.url);
  try {
    const response = await fetch(url);
    if (response.ok) return response;
    throw new Error(`its status is ${response.status}`);
  } catch (cause) {
    throw new Error(`${url} can't be fetched: pass init() the bytes of texting-robots/robots.wasm`, { cause });
  }
}

export async function init(source = fetched()) {
  const given = await source, isModule = given instanceof WebAssembly.Module;
  const module = isModule ? given : await WebAssembly.compile(typeof given.arrayBuffer === "function" ? await given.arrayBuffer() : given);
  if (WebAssembly.Module.exports(module).some(it => it.name === "robots_url")) return library(module);
  throw new TypeError("source has to be texting-robots/robots.wasm, and is another module");
}
