// The kernel in WebAssembly, for node and browsers. The module imports nothing; its buffers lie in its own memory, above its stack.
//
//     const kernel = await instantiate(bytes_of_arduinos_wasm);
//     const { at, call } = kernel;
//     call.format(at.disc, 1024, at.area, AREA_SIZE);      // the functions of arduinos.h, without 'arduinos_'
//     kernel.put(at.name, text_as_bytes);                  // before a call that reads a name or data
//     kernel.bytes(at.out, n);                             // a copy of what a call wrote
export const DISC_SIZE = 1024, LONG_DISC_SIZE = 4096, AREA_SIZE = 1056, ROUND_OUTPUT = 2560;

export async function instantiate(bytes) {
  const { instance } = await WebAssembly.instantiate(bytes, {});
  const { memory, __heap_base: base } = instance.exports;
  const room = 65536; // for each of the five
  const names = ['disc', 'area', 'out', 'name', 'data'];
  const first = Math.ceil(base.value / 16) * 16;
  const missing = first + names.length * room - memory.buffer.byteLength;
  if (missing > 0) memory.grow(Math.ceil(missing / 65536));
  const at = Object.fromEntries(names.map((name, i) => [name, first + i * room]));
  const call = {};
  for (const [name, f] of Object.entries(instance.exports)) if (name.startsWith('arduinos_')) call[name.slice(9)] = f;
  return {
    at,
    call,
    put: (address, bytes) => new Uint8Array(memory.buffer).set(bytes, address),
    bytes: (address, length) => new Uint8Array(memory.buffer).slice(address, address + length),
  };
}
