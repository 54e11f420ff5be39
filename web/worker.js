// SPDX-License-Identifier: MIT OR Apache-2.0
// The worker of the page: the module, and the engine over it.
import { bind } from '../bindings/js/library.js';
import { Engine } from './engine.js';

/** The engine over the module, which is compressed in the page. */
async function begun(bytes) {
  const stream = new Blob([bytes]).stream().pipeThrough(new DecompressionStream('deflate'));
  const module = await WebAssembly.compile(await new Response(stream).arrayBuffer());
  return new Engine(bind(module), (told) => postMessage(told));
}

let engine = null; // the promise of it

onmessage = async ({ data }) => {
  try {
    if (data.module) engine = begun(data.module);
    else (await engine).take(data);
  } catch (error) {
    // a fault of no file is one of the browser, which does not take the module
    postMessage({ kind: 'broken', message: String(error?.message ?? error) });
  }
};
