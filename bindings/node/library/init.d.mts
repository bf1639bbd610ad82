/**
 * The package for programs without Node's files: `source` is the module `robots.wasm`, compiled or as bytes, or a response with it, or a
 * promise of these. Without it the file beside this one is fetched, which Node can't do: pass the bytes there.
 */
export declare function init(
  source?: WebAssemblyModule | ArrayBuffer | ArrayBufferView | HasBytes | PromiseLike<WebAssemblyModule | ArrayBuffer | ArrayBufferView | HasBytes>,
): Promise<typeof import("./index.mjs")>;

/** A response of fetch(). */
export interface HasBytes {
  arrayBuffer(): Promise<ArrayBuffer>;
}

/** WebAssembly.Module, which only some libraries of TypeScript declare. */
export type WebAssemblyModule = object;
