// A C program in WebAssembly under node: node.mjs PROGRAM.wasm. Its main's answer is the exit status.
import { readFileSync } from 'node:fs';

const parts = [];
let memory;
const put = (from, length) => { parts.push(Buffer.from(memory.buffer.slice(from, from + length))); };
const { instance } = await WebAssembly.instantiate(readFileSync(process.argv[2]), { host: { put } });
memory = instance.exports.memory;
const status = instance.exports.main();
process.stdout.write(Buffer.concat(parts));
process.exitCode = status;
