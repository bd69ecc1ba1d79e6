// Compiles the engine once, for the workers that the head of the page has started.

/** The module of a text in base 64 that is packed by gzip. The browser's own readers are the fastest. */
async function compiled(text) {
  const { body } = await fetch(`data:application/octet-stream;base64,${text.trim()}`);
  const bytes = await new Response(body.pipeThrough(new DecompressionStream("gzip"))).arrayBuffer();
  return WebAssembly.compile(bytes);
}

compiled(document.getElementById("tiling-wasm").textContent).then(
    (module) => window.startedWorkers.begin({ module }), (fault) => window.startedWorkers.begin({ fault }));
