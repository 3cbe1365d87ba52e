// An application's tree and what readers hold of it, side by side: one line for each node that stands at the same
// place of them, with what differs.

// the longest run of paths that both lists have in one order, as pairs of places (a longest rising subsequence)
function commonOrder(ours, theirs) {
    const places = new Map(theirs.map((row, k) => [row.node.path, k]));
    const tails = [], before = new Int32Array(ours.length), place = new Int32Array(ours.length);
    for (let k = 0; k < ours.length; k++) {
        const there = places.get(ours[k].node.path);
        place[k] = there ?? -1;
        if (there === undefined) continue;
        let low = 0, high = tails.length;
        while (low < high) {
            const middle = (low + high) >> 1;
            if (place[tails[middle]] < there)
                low = middle + 1;
            else
                high = middle;
        }
        before[k] = low > 0 ? tails[low - 1] : -1;
        tails[low] = k;
    }
    const pairs = [];
    for (let k = tails.length ? tails[tails.length - 1] : -1; k >= 0; k = before[k]) pairs.push([k, place[k]]);
    return pairs.reverse();
}

const samePart = (ours, theirs) => theirs === UNKNOWN || ours === theirs;

// what a reader's row has otherwise than the application's node, in words
function staleFields(node, row) {
    const fields = [];
    if (node.name !== row.name) fields.push('name');
    if (node.description !== row.description) fields.push('description');
    if (node.role !== row.role) fields.push('role');
    if (node.low !== row.low || node.high !== row.high) fields.push('states');
    if (node.kinds !== row.kinds) fields.push('interfaces');
    if (node.parent !== row.parent) fields.push('place');
    for (const part of ['text', 'caret', 'columns'])
        if (!samePart(node[part], row[part])) fields.push(part);
    return fields;
}

const unknownParts = row => ['text', 'caret', 'columns'].filter(part => row[part] === UNKNOWN);

// Lines of cells, a cell for each column: the application's rows first (none where its tree is not told), then each
// reader's (null where it holds nothing). A cell has a row and its mark: what is stale, unknown or missing.
function sideBySide(ours, readers) {
    const base = ours ?? readers.find(rows => rows) ?? [];
    const gaps = Array.from({length: base.length + 1}, () => new Map());
    const lines = base.map(row => ({path: row.node.path, cells: [ours ? cell(row) : null]}));
    const extra = (gap, column, made) => {
        const {path} = made.row.node;
        if (!gaps[gap].has(path)) gaps[gap].set(path, {path, cells: [null]});
        gaps[gap].get(path).cells[column] = made;
    };
    for (const [k, rows] of readers.entries())
        if (rows) placeRows(base, rows, k + 1, lines, extra, ours !== null);
    const merged = [];
    for (let k = 0; k <= base.length; k++) {
        merged.push(...gaps[k].values());
        if (k < base.length) merged.push(lines[k]);
    }
    for (const line of merged)
        for (let k = 0; k <= readers.length; k++) line.cells[k] ??= null;
    return merged;
}

const cell = (row, mark = {}) => ({row, stale: [], unknown: [], missing: false, gone: false, ...mark});

function placeRows(base, rows, column, lines, extra, isCompared) {
    const pairs = commonOrder(base, rows), at = new Map(base.map(row => [row.node.path, row.node]));
    const held = new Set(rows.map(row => row.node.path));
    let next = 0, gap = 0;
    const behind = (until, from) => {
        for (; next < until; next++) {
            const row = rows[next], node = at.get(row.node.path);
            const stale = !isCompared ? [] : node ? [...new Set(['place', ...staleFields(node, row.node)])] : [];
            extra(from, column, cell(row, {stale, unknown: unknownParts(row.node), gone: isCompared && !node}));
        }
    };
    for (const [ours, theirs] of pairs) {
        behind(theirs, gap);
        const row = rows[next++];
        const stale = isCompared ? staleFields(base[ours].node, row.node) : [];
        lines[ours].cells[column] = cell(row, {stale, unknown: unknownParts(row.node)});
        gap = ours + 1;
    }
    behind(rows.length, gap);
    if (!isCompared) return;
    for (const [k, row] of base.entries())
        if (!held.has(row.node.path)) lines[k].cells[column] = cell(row, {missing: true});
}

// what is marked at a cell, in words
function markWords(made) {
    if (made.missing) return ['missing'];
    const words = [];
    if (made.gone) words.push('stale: the node is gone');
    if (made.stale.length) words.push(`stale: ${made.stale.join(', ')}`);
    if (made.unknown.length) words.push(`unknown: ${made.unknown.join(', ')}`);
    return words;
}

// the lines that stand open: a cell below a closed node is left out, and a line without cells
function openLines(lines, closed, columns) {
    if (!closed.size) return lines;
    const shut = new Array(columns).fill(Infinity);
    const open = [];
    for (const line of lines) {
        const cells = line.cells.map((made, k) => {
            if (!made) return null;
            if (made.row.level > shut[k]) return null;
            shut[k] = closed.has(line.path) ? made.row.level : Infinity;
            return made;
        });
        if (cells.some(made => made)) open.push({path: line.path, cells});
    }
    return open;
}

// the rows of a `show` line, read as rows of a walk
function shownRows(texts) {
    const levels = new Map(), sizes = new Map();
    const rows = texts.map(text => {
        const found = matchAt(ROW, text, 0, text.length);
        const full = word => word === 'root' ? ROOT_PATH : /^[0-9]/.test(word) ? pathOf(Number(word)) : word;
        const part = (shown, value) => shown === '-' ? ABSENT : shown === '?' ? UNKNOWN : value(shown);
        const node = {
            path: full(found[1]),
            parent: found[2] === undefined ? null : full(found[2]),
            role: roleOf(found[4]),
            high: parseInt(found[5].slice(0, 8), 16),
            low: parseInt(found[5].slice(8), 16),
            name: unquote(found[6]),
            description: unquote(found[7]),
            kinds: KIND_LETTERS.reduce((kinds, [bit, letter]) => found[8].includes(letter) ? kinds | bit : kinds, 0),
            text: part(found[9], unquote),
            caret: part(found[11], Number),
            columns: part(found[13], Number),
            children: [],
            marks: [],
            actions: [],
            relations: [],
        };
        const level = node.parent === null ? 1 : (levels.get(node.parent) ?? 0) + 1;
        levels.set(node.path, level);
        sizes.set(node.parent, (sizes.get(node.parent) ?? 0) + 1);
        return {node, level, index: Number(found[3]), size: 0};
    });
    const at = new Map(rows.map(row => [row.node.path, row.node]));
    for (const row of rows) {
        row.size = sizes.get(row.node.parent);
        at.get(row.node.parent)?.children.push(row.node.path);
    }
    return rows;
}
