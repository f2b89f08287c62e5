// The formatter, for pages and for Node: `const format = await load(bytes)` of justfile.wasm, and then
// `format(text)`.

// Where each field of the answer is, and how many bytes it has.
const FIELDS = {
    status: [0, 4], fits: [4, 4], length: [8, 8], offset: [16, 8], width: [24, 8], line: [32, 8], column: [40, 8],
};
const ANSWER_BYTES = 48;

const encoder = new TextEncoder();
const decoder = new TextDecoder('utf-8', { ignoreBOM: true });

// Answers a function from a text, as a string or as bytes of UTF-8, to {status, text, offset, width, line, column}:
// status 0 with the formatted text, 2 with the lines that tell why the text has none, 3 with the line that tells that
// it isn't UTF-8 or that memory or numbers ran out. The place is that of the error's token, in bytes and from 0, or
// zeros. The function throws a RangeError if there is no memory for the texts themselves.
export async function load(bytes) {
    const { instance } = await WebAssembly.instantiate(bytes, {});
    return formatter(instance.exports);
}

// The same of the exports of an instance.
export function formatter({ memory, justfile_format, justfile_room, justfile_give_back }) {
    const taken = size => {
        const place = justfile_room(BigInt(size));
        if (!place) throw new RangeError('out of memory');
        return place;
    };
    const answer = taken(ANSWER_BYTES);
    const field = name => {
        const [at, size] = FIELDS[name];
        const view = new DataView(memory.buffer, Number(answer), ANSWER_BYTES);
        return size === 4 ? view.getUint32(at, true) : Number(view.getBigUint64(at, true));
    };
    // Formats into a room of a size. Answers nothing if it is too small.
    const tried = (input, length, size) => {
        const room = taken(size);
        try {
            justfile_format(input, BigInt(length), room, BigInt(size), answer);
            if (!field('fits')) return null;
            return {
                status: field('status'),
                text: decoder.decode(new Uint8Array(memory.buffer, Number(room), field('length'))),
                offset: field('offset'),
                width: field('width'),
                line: field('line'),
                column: field('column'),
            };
        } finally {
            justfile_give_back(room);
        }
    };

    return source => {
        const text = typeof source === 'string' ? encoder.encode(source) : source;
        const input = taken(text.length + 1);
        try {
            new Uint8Array(memory.buffer).set(text, Number(input));
            return tried(input, text.length, 2 * text.length + 1024) ?? tried(input, text.length, field('length'));
        } finally {
            justfile_give_back(input);
        }
    };
}
