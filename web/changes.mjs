// What formatting changed, line by line.

// How many lines apart two equal lines may be to be taken for the same.
const REACH = 40;
// How many lines are shown before and after a change.
const AROUND = 3;

// The next lines from which two texts go on alike: [i, j], with the fewest lines left out, or their ends.
function meeting(old, now, i, j) {
    for (let apart = 1; apart <= REACH; apart++) {
        for (let left = 0; left <= apart; left++) {
            const a = i + left, b = j + apart - left;
            if (a < old.length && b < now.length && old[a] === now[b]) return [a, b];
        }
    }
    return [Math.min(i + REACH, old.length), Math.min(j + REACH, now.length)];
}

// All lines of both texts, as [sign, line], where ' ' stands before a line of both, '-' before one of the old text alone
// and '+' before one of the new text alone.
export function lines(oldText, newText) {
    const old = oldText.split('\n'), now = newText.split('\n'), found = [];
    let i = 0, j = 0;
    while (i < old.length || j < now.length) {
        if (i < old.length && j < now.length && old[i] === now[j]) {
            found.push([' ', old[i++]]);
            j++;
            continue;
        }
        const [a, b] = meeting(old, now, i, j);
        while (i < a) found.push(['-', old[i++]]);
        while (j < b) found.push(['+', now[j++]]);
    }
    return found;
}

// The lines that changed and those around them, with ['…', ''] in place of the others.
export function changes(oldText, newText) {
    const all = lines(oldText, newText), shown = new Uint8Array(all.length), found = [];
    all.forEach(([sign], at) => {
        if (sign !== ' ') shown.fill(1, Math.max(0, at - AROUND), at + AROUND + 1);
    });
    for (let at = 0; at < all.length; at++) {
        if (shown[at]) found.push(all[at]);
        else if (at === 0 || shown[at - 1]) found.push(['…', '']);
    }
    return found;
}
