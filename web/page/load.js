// Where a worker finds the program: in a folder, or in a text that it is given.

// A module with a memory and a table of 64-bit indices, and nothing else.
const wide = new Uint8Array([0, 97, 115, 109, 1, 0, 0, 0, 4, 4, 1, 112, 4, 0, 5, 3, 1, 4, 0]);

// The program as the kit's tools made it; where the engine does not know 64-bit memories, the same lowered to 32 bits.
export async function moduleIn(folder) {
  const name = WebAssembly.validate(wide) ? 'comfusy.wasm' : 'comfusy32.wasm';
  const response = await fetch(folder + name);
  if (!response.ok) throw new Error(`${name} cannot be fetched: ${response.status}`);
  if (response.headers.get('Content-Type') === 'application/wasm') return WebAssembly.compileStreaming(response);
  return WebAssembly.compile(await response.arrayBuffer());
}

export async function moduleOf(base64) {
  return WebAssembly.compile(Uint8Array.fromBase64?.(base64) ?? Uint8Array.from(atob(base64), character => character.charCodeAt(0)));
}
