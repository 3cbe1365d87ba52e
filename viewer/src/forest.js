// The trees: for each application its tree and beside it what each reader holds, a column each. Each column is a tree
// of its own to who listens, and its lines stand beside those of the others.

const LINE_HEIGHT = 26, SPARE_LINES = 8, ALL_LINES = 400;

class Forest {
    constructor(page, app) {
        this.page = page;
        this.app = app;
        this.closed = new Set();
        this.path = null;
        this.columns = [];
        this.draw = oncePerFrame(() => this.drawNow());
        this.title = make('h3', {id: `forest-${app}`});
        this.note = make('p', {class: 'forest-note'});
        this.heads = make('div', {class: 'column-heads'});
        this.sheet = make('div', {class: 'forest-sheet'});
        this.scroller = make('div', {class: 'forest-scroller', onscroll: this.draw}, this.heads, this.sheet);
        this.element = make(
            'section', {class: 'forest', 'aria-labelledby': `forest-${app}`}, this.title, this.note, this.scroller);
        this.trees = [];
    }

    // what is to be drawn: the application's rows, or null, and each reader's
    show(title, note, ours, readers) {
        this.title.replaceChildren(...title);
        this.note.textContent = note;
        this.note.hidden = !note;
        this.lines = sideBySide(ours, readers.map(reader => reader.rows));
        this.columns = [{title: `${this.app} has`, rows: ours, empty: 'The trace tells no steps of it.'},
            ...readers].map((column, k) => ({...column, k}));
        if (!ours) this.columns = this.columns.slice(1);
        if (this.path && !this.lines.some(line => line.path === this.path)) this.path = null;
        this.arrange();
    }

    arrange() {
        this.open = openLines(this.lines, this.closed, (this.columns[this.columns.length - 1]?.k ?? 0) + 1);
        const key = this.columns.map(column => column.title).join('\n');
        if (this.key !== key) this.makeColumns(key);
        this.sheet.style.height = `${Math.max(1, this.open.length) * LINE_HEIGHT}px`;
        this.drawNow();
    }

    makeColumns(key) {
        this.key = key;
        this.heads.replaceChildren(...this.columns.map(
            column => make('div', {class: 'column-head', id: `head-${this.app}-${column.k}`}, column.title)));
        this.trees = this.columns.map(column => make('div', {
            class: 'tree',
            role: 'tree',
            tabindex: '0',
            id: `tree-${this.app}-${column.k}`,
            'aria-labelledby': `head-${this.app}-${column.k}`,
            onkeydown: happening => this.onKey(happening, column.k),
            onclick: happening => this.onClick(happening, column.k),
            onfocus: () => this.onFocus(column.k),
        }));
        this.sheet.replaceChildren(...this.trees);
        for (const element of [this.heads, this.sheet])
            element.style.gridTemplateColumns = `repeat(${this.columns.length}, minmax(13rem, 1fr))`;
    }

    drawNow() {
        const few = this.open.length <= ALL_LINES;
        const {scrollTop, clientHeight} = this.scroller;
        const first = few ? 0 : Math.max(0, Math.floor(scrollTop / LINE_HEIGHT) - SPARE_LINES);
        const last = few
            ? this.open.length - 1
            : Math.min(this.open.length - 1, Math.ceil((scrollTop + clientHeight) / LINE_HEIGHT) + SPARE_LINES);
        for (const [place, column] of this.columns.entries()) {
            const tree = this.trees[place], items = [];
            for (let k = first; k <= last; k++) {
                const made = this.open[k].cells[column.k];
                if (made) items.push(this.itemAt(made, column, k));
            }
            if (!column.rows)
                items.push({key: 'empty', sign: column.empty, make: () => make('p', {class: 'empty'}, column.empty)});
            putRows(tree, items);
            tree.setAttribute('role', column.rows && column.rows.length ? 'tree' : 'group');
            tree.tabIndex = column.rows && column.rows.length ? 0 : -1;
            const current = this.open.findIndex(line => line.path === this.path);
            if (current >= first && current <= last && this.open[current].cells[column.k])
                tree.setAttribute('aria-activedescendant', this.itemId(column.k, this.path));
            else
                tree.removeAttribute('aria-activedescendant');
        }
    }

    itemId(column, path) { return `node-${this.app}-${column}-${path.replaceAll('/', '.')}`; }

    itemAt(made, column, k) {
        const {node, level, index, size} = made.row, marks = markWords(made);
        const sign = `${k} ${level} ${size} ${node.path === this.path} ${this.closed.has(node.path)} ${
            node.children.length > 0} ${marks.join()} ${rowText(node, index)}`;
        return {key: node.path, sign, make: () => this.item(made, column, k, marks)};
    }

    item(made, column, k, marks) {
        const {node, level, index, size} = made.row;
        const classes = [
            'item', made.missing ? 'missing' : '', made.gone || made.stale.length ? 'stale' : '',
            made.unknown.length ? 'unknown' : '', node.path === this.path ? 'current' : ''
        ];
        const isOpen = !this.closed.has(node.path);
        const states = stateNames(node).filter(name => !['enabled', 'sensitive', 'showing', 'visible'].includes(name));
        const lacks = ['enabled', 'sensitive', 'showing', 'visible']
                          .filter(name => !hasState(node, STATE_BITS.get(name)))
                          .map(name => `not ${name}`);
        const parts = [];
        if (node.text !== ABSENT)
            parts.push(node.text === UNKNOWN
                    ? 'text ?'
                    : `text ${quote(node.text.length > 60 ? node.text.slice(0, 60) + '…' : node.text)}`);
        if (node.caret !== ABSENT && node.caret !== UNKNOWN) parts.push(`caret ${node.caret}`);
        if (node.columns !== ABSENT) parts.push(node.columns === UNKNOWN ? 'columns ?' : `columns ${node.columns}`);
        return make('div', {
            class: classes.filter(Boolean).join(' '),
            style: `top:${k * LINE_HEIGHT}px;padding-left:${8 + (level - 1) * 16}px`,
            role: 'treeitem',
            id: this.itemId(column.k, node.path),
            'data-path': node.path,
            'data-row': made.missing ? null : rowText(node, index),
            'aria-level': level,
            'aria-posinset': index < 0 ? 1 : index + 1,
            'aria-setsize': size,
            'aria-expanded': node.children.length && !made.missing ? String(isOpen) : null,
            'aria-selected': String(node.path === this.path),
            title: made.missing ? 'the reader does not hold this node' : rowText(node, index),
        },
            make('span', {class: 'twist', 'aria-hidden': 'true'},
                node.children.length && !made.missing ? (isOpen ? '▾' : '▸') : ''),
            ...(marks.length ? marks.map(words => make('span', {class: `mark mark-${words.split(/[: ]/)[0]}`}, words))
                             : []),
            make('span', {class: 'node-number'}, shownPath(node.path)), ' ',
            make('span', {class: 'node-role'}, roleName(node.role)), ' ',
            make('span', {class: node.name === '' ? 'node-name none' : 'node-name'},
                node.name === '' ? 'no name' : `“${node.name}”`),
            ' ', ...(made.missing ? [] : [
                make('span', {class: 'node-states'}, [...states, ...lacks].join(', ')),
                ' ',
                make('span', {class: 'node-parts'}, parts.join(', ')),
            ]));
    }

    choose(path, column, reveal = true) {
        this.path = path;
        this.page.choose(this.app, path);
        const k = this.open.findIndex(line => line.path === path);
        if (reveal && k >= 0) {
            const {scrollTop, clientHeight} = this.scroller, top = k * LINE_HEIGHT + this.heads.offsetHeight;
            if (top < scrollTop + this.heads.offsetHeight)
                this.scroller.scrollTop = top - this.heads.offsetHeight;
            else if (top + LINE_HEIGHT > scrollTop + clientHeight)
                this.scroller.scrollTop = top + LINE_HEIGHT - clientHeight;
        }
        this.drawNow();
    }

    inColumn(column) { return this.open.filter(line => line.cells[column]); }

    onFocus(column) {
        const lines = this.inColumn(column);
        if (lines.length && !lines.some(line => line.path === this.path)) this.choose(lines[0].path, column);
    }

    onClick(happening, column) {
        const item = happening.target.closest('[role=treeitem]');
        if (!item) return;
        if (happening.target.closest('.twist')) this.turn(item.dataset.path, this.closed.has(item.dataset.path));
        this.choose(item.dataset.path, column, false);
    }

    turn(path, open) {
        if (open)
            this.closed.delete(path);
        else
            this.closed.add(path);
        this.arrange();
    }

    onKey(happening, column) {
        const lines = this.inColumn(column), at = lines.findIndex(line => line.path === this.path);
        if (!lines.length || happening.ctrlKey || happening.altKey || happening.metaKey) return;
        const made = at >= 0 ? lines[at].cells[column] : null,
              to = k => this.choose(lines[Math.max(0, Math.min(lines.length - 1, k))].path, column);
        const hasChildren = made && !made.missing && made.row.node.children.length > 0;
        switch (happening.key) {
            case 'ArrowDown':
                to(at + 1);
                break;
            case 'ArrowUp':
                to(at - 1);
                break;
            case 'Home':
                to(0);
                break;
            case 'End':
                to(lines.length - 1);
                break;
            case 'ArrowRight':
                if (hasChildren && this.closed.has(this.path))
                    this.turn(this.path, true);
                else if (hasChildren)
                    to(at + 1);
                break;
            case 'ArrowLeft':
                if (hasChildren && !this.closed.has(this.path))
                    this.turn(this.path, false);
                else if (made && made.row.node.parent !== null)
                    this.choose(made.row.node.parent, column);
                break;
            default:
                return;
        }
        happening.preventDefault();
        happening.stopPropagation();
    }
}

// What a node is in the application and in each reader, a field a line.
const NODE_FIELDS = [
    ['name', node => quote(node.name)],
    ['description', node => quote(node.description)],
    ['role', node => `${roleName(node.role)} (${node.role})`],
    ['states', node => stateNames(node).join(', ') || 'none'],
    ['interfaces', node => kindNames(node.kinds)],
    ['place', (node, row) => node.parent === null ? 'the root' : `child ${row.index} of ${shownPath(node.parent)}`],
    ['text', node => partText(node.text, quote)],
    ['caret', node => partText(node.caret, String)],
    ['columns', node => partText(node.columns, String)],
];

function nodeTable(forest) {
    const line = forest.lines.filter(each => each.path === forest.path);
    const cells = forest.columns.map(
        column => line.map(each => each.cells[column.k]).find(made => made && !made.missing) ?? null);
    const head = make('tr', {}, make('td'), ...forest.columns.map(column => make('th', {scope: 'col'}, column.title)));
    const rows =
        NODE_FIELDS.map(([name, text]) => make('tr', {}, make('th', {scope: 'row'}, name), ...cells.map((made, k) => {
            if (!made) return make('td', {class: 'faint'}, forest.columns[k].rows ? 'missing' : 'holds nothing');
            const shown = text(made.row.node, made.row);
            const mark = made.stale.includes(name) ? 'stale' : made.unknown.includes(name) ? 'unknown' : '';
            return make('td', {},
                shown === '?' || shown === '-' ? make('span', {class: 'faint'}, shown === '?' ? 'not told yet' : 'none')
                                               : shown,
                mark ? make('span', {class: `mark mark-${mark}`}, mark) : null);
        })));
    const node = cells[0]?.row.node;
    if (node && forest.columns[0].k === 0) {
        const more = [
            ['actions', node.actions.map(quote).join(', ')],
            ['selections', node.marks.map(([from, to]) => `${from} to ${to}`).join(', ')],
            [
                'relations',
                node.relations.map(([kind, target]) => `${RELATION_NAMES[kind - 1] ?? kind} ${target}`).join(', ')
            ]
        ];
        for (const [name, text] of more)
            if (text)
                rows.push(make('tr', {}, make('th', {scope: 'row'}, name), make('td', {colspan: cells.length}, text)));
    }
    return make('table', {class: 'node-table'}, make('thead', {}, head), make('tbody', {}, rows));
}
