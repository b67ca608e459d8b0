// Document 01's program bench on arduinos.wasm, through arduinos.mjs: bench.mjs FOLDER, as scripts/library makes it.
import { readFileSync } from 'node:fs';
import { pathToFileURL } from 'node:url';

const folder = process.argv[2];
const { instantiate, DISC_SIZE, AREA_SIZE, ROUND_OUTPUT } = await import(pathToFileURL(folder + '/arduinos.mjs'));
const { at, call, put, bytes } = await instantiate(readFileSync(folder + '/arduinos.wasm'));
const disc = [at.disc, DISC_SIZE], area = [at.area, AREA_SIZE], out = [at.out, ROUND_OUTPUT];
const done = number => { if (number < 0) throw new Error('refused ' + number); return number; };
const text = number => { process.stdout.write(Buffer.from(bytes(at.out, done(number)))); };
const runs = () => { const now = bytes(...area); for (let i = 0; i < 10; i++) if (now[416 + 64 * i + 14] === 114) return true; return false; };

done(call.format(...disc, ...area));
put(at.name, Buffer.from('down'));
put(at.data, [2, 0, 3, 5, 110, 6, 110, 63, 2, 8, 6, 110, 52, 6, 110, 8, 5, 110, 64, 67]);
done(call.store(...disc, at.name, 4, at.data, 20));
text(call.files(...disc, ...out));
done(call.run(...disc, ...area, at.name, 4));
text(call.list(...disc, ...area, ...out));
let rounds = 0;
for (; runs() && rounds < 1000; rounds++) text(call.round(...disc, ...area, 0, ...out));
console.log(call.free_space(...disc));
if (rounds !== 29) { console.log('rounds ' + rounds); process.exitCode = 1; }
