// The page: hands the text to the worker, and shows what it tells.
const ROWS_AT_ONCE = 200;
const [text, answer, state, mark, kind, wanted, copy, replace, show] =
    ['text', 'answer', 'state', 'mark', 'kind', 'changes', 'copy', 'replace', 'show'].map(it => document.getElementById(it));
const worker = new Worker('worker.mjs', { type: 'module' });
const style = getComputedStyle(text);
let busy = true, stale = true, asked, told = { status: null };

// Asks for the newest text, one question at a time.
function ask() {
    stale = true;
    if (busy) return;
    busy = true;
    stale = false;
    asked = text.value;
    worker.postMessage({ text: asked, wantsChanges: wanted.checked });
}

// Rows of lines, each with the class of its sign, in parts that the browser lays out once they are seen.
function rows(lines) {
    const parts = [];
    for (let at = 0; at < lines.length; at += ROWS_AT_ONCE) {
        const part = document.createElement('div'), shown = lines.slice(at, at + ROWS_AT_ONCE);
        part.className = 'rows';
        part.style.containIntrinsicBlockSize = `calc(var(--row) * ${shown.length})`;
        part.append(...(typeof shown[0] === 'string' ? [shown.join('\n')] : shown.map(signed)));
        parts.push(part);
    }
    answer.replaceChildren(...parts);
}

function signed([sign, line]) {
    const row = document.createElement('div');
    row.className = { '-': 'gone', '+': 'new', '…': 'between' }[sign] ?? '';
    row.textContent = `${sign} ${line}`;
    return row;
}

// Marks the line of the error in the text, which scrolls.
function place() {
    const height = parseFloat(style.lineHeight);
    mark.hidden = told.status !== 2;
    mark.style.top = `${parseFloat(style.paddingTop) + 1 + told.line * height - text.scrollTop}px`;
}

function sentence() {
    if (told.status === 2) return `Line ${told.line + 1}, byte ${told.column + 1}: this isn't formatted.`;
    if (told.status === 3) return "This isn't formatted.";
    return told.text === asked ? 'Formatted already.' : `Formatted in ${told.milliseconds.toFixed(1)} ms.`;
}

function tell(it) {
    told = it;
    const refused = it.status !== 0;
    kind.textContent = refused ? 'Error' : it.changes ? 'Changes' : 'Formatted';
    answer.className = refused ? 'refused lines' : '';
    rows(it.changes ?? it.text.replace(/\n$/, '').split('\n'));
    copy.disabled = replace.disabled = refused;
    show.hidden = it.status !== 2;
    state.textContent = sentence();
    document.body.dataset.status = it.status;
    place();
}

function fail(message) {
    state.textContent = `The formatter doesn't run here: ${message}`;
    document.body.dataset.status = 'none';
}

worker.addEventListener('message', ({ data }) => {
    busy = false;
    if (data.failed) fail(data.failed);
    else if (data !== 'ready') tell(data);
    if (stale) ask();
});
worker.addEventListener('error', event => fail(event.message ?? 'no worker'));
text.addEventListener('input', () => {
    mark.hidden = true;
    ask();
});
text.addEventListener('scroll', place);
wanted.addEventListener('change', ask);
show.addEventListener('click', () => {
    text.focus();
    text.setSelectionRange(...told.selection);
    text.scrollTop = (told.line - 3) * parseFloat(style.lineHeight);
});
replace.addEventListener('click', () => {
    text.focus();
    text.setRangeText(told.text, 0, text.value.length, 'start');
    text.setSelectionRange(0, 0);
    ask();
});
copy.addEventListener('click', async () => {
    await navigator.clipboard.writeText(told.text);
    state.textContent = 'Copied.';
});

try {
    const found = await fetch('justfile.wasm');
    if (!found.ok) throw new Error(`justfile.wasm: ${found.status}`);
    worker.postMessage(await found.arrayBuffer());
} catch (error) {
    fail(error.message);
}
