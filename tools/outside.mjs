// Formats texts in Node: outside.mjs WEB TEXTS. Writes a list of [status, bytes], the bytes in base64 as in TEXTS.
import { readFileSync } from 'node:fs';
import { resolve } from 'node:path';

const [web, texts] = process.argv.slice(2);
const { load } = await import(resolve(web, 'justfile.mjs'));
const format = await load(readFileSync(resolve(web, 'justfile.wasm')));
const answers = JSON.parse(readFileSync(texts)).map(it => {
    const { status, text } = format(Buffer.from(it, 'base64'));
    return [status, Buffer.from(text).toString('base64')];
});
process.stdout.write(JSON.stringify(answers));
