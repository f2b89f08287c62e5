// Formats beside the page, so that it never waits. The first message is the module's bytes; each other one is
// {text, wantsChanges}, and is answered by what the page shows of it.
import { changes } from './changes.mjs';
import { load } from './justfile.mjs';

const encoder = new TextEncoder();
const decoder = new TextDecoder('utf-8', { ignoreBOM: true });
let format;

// The error's place as the page counts: in units of UTF-16 from the start of the text.
function selection(bytes, { offset, width }) {
    const before = decoder.decode(bytes.subarray(0, offset)).length;
    return [before, before + decoder.decode(bytes.subarray(offset, offset + width)).length];
}

function told({ text, wantsChanges }) {
    const begun = performance.now(), bytes = encoder.encode(text), it = format(bytes);
    const milliseconds = performance.now() - begun;
    if (it.status !== 0) return { ...it, milliseconds, selection: selection(bytes, it) };
    return { ...it, milliseconds, changes: wantsChanges ? changes(text, it.text) : null };
}

addEventListener('message', async ({ data }) => {
    try {
        if (format) postMessage(told(data));
        else {
            format = await load(data);
            postMessage('ready');
        }
    } catch (error) {
        postMessage({ failed: error.message });
    }
});
