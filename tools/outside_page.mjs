// Formats texts in a browser, by the loader and by the page in the frame, and tells outside.py what came of it.
import { load } from './justfile.mjs';

const frame = document.querySelector('iframe');
const strict = new TextDecoder('utf-8', { fatal: true, ignoreBOM: true });
const tell = it => fetch('answers', { method: 'POST', body: JSON.stringify(it) });
const bytesOf = it => Uint8Array.from(atob(it), byte => byte.charCodeAt(0));
const encoded = text => btoa(Array.from(new TextEncoder().encode(text), it => String.fromCharCode(it)).join(''));

// Waits until the page tells a status.
function told(body) {
    return new Promise(done => {
        const look = () => body.dataset.status ? done(body.dataset.status) : setTimeout(look, 0);
        look();
    });
}

// What the page shows of a text that is typed into it, or nothing if its field can't hold the text.
async function shown(page, bytes) {
    const field = page.querySelector('#text');
    try {
        field.value = strict.decode(bytes);
        if (field.value !== strict.decode(bytes)) return null;
    } catch {
        return null;
    }
    page.body.dataset.status = '';
    field.dispatchEvent(new Event('input'));
    const status = Number(await told(page.body));
    const parts = Array.from(page.querySelector('#answer').children, it => it.textContent);
    return [status, encoded(parts.join('\n'))];
}

try {
    const texts = (await (await fetch('texts.json')).json()).map(bytesOf);
    const format = await load(await (await fetch('justfile.wasm')).arrayBuffer());
    const loader = texts.map(it => format(it)).map(({ status, text }) => [status, encoded(text)]);
    const page = [];
    await told(frame.contentDocument.body);
    for (const it of texts) page.push(await shown(frame.contentDocument, it));
    await tell({ loader, page });
} catch (error) {
    await tell(error.message);
}
