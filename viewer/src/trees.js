// Trees of nodes by their paths: an application's tree, made of its steps, and a reader's view of it. A tree can be
// kept as it is: nodes that a kept tree has too are copied where they change, so keeping costs a map and no nodes.

const ABSENT = null, UNKNOWN = Object.freeze({unknown: true});

let epochs = 0;

class Tree {
    constructor(nodes = new Map(), added = 0) {
        this.nodes = nodes;
        this.added = added;
        this.epoch = ++epochs;
    }

    // the tree as it is now; this one goes on
    kept() {
        this.epoch = ++epochs;
        return {nodes: new Map(this.nodes), added: this.added};
    }

    static from(kept) { return new Tree(new Map(kept.nodes), kept.added); }

    get(path) { return this.nodes.get(path); }

    // the node, which no kept tree has, so that it can be changed
    own(path) {
        const node = this.nodes.get(path);
        if (!node || node.epoch === this.epoch) return node;
        const copy = {...node, children: node.children.slice(), epoch: this.epoch};
        this.nodes.set(path, copy);
        return copy;
    }

    // a node put below a parent before its child at an index; below none it is the root
    put(node, parent, index) {
        node.parent = parent;
        node.epoch = this.epoch;
        this.nodes.set(node.path, node);
        if (parent !== null) this.own(parent).children.splice(index, 0, node.path);
    }

    // a node taken out of its parent's children; it stays in the map
    cut(path) {
        const parent = this.own(this.get(path).parent);
        parent.children.splice(parent.children.indexOf(path), 1);
    }

    move(path, parent, index) {
        this.cut(path);
        this.own(path).parent = parent;
        this.own(parent).children.splice(index, 0, path);
    }

    // the node with all below it is gone; their paths are given back
    remove(path) {
        this.cut(path);
        const gone = this.below(path);
        for (const each of gone) this.nodes.delete(each);
        return gone;
    }

    // the paths from a node on, in preorder
    below(path) {
        const paths = [];
        const open = [path];
        while (open.length) {
            const next = open.pop();
            paths.push(next);
            const {children} = this.get(next);
            for (let k = children.length - 1; k >= 0; k--) open.push(children[k]);
        }
        return paths;
    }

    // whether a node is another or stands below it
    isWithin(path, above) {
        for (let at = path; at !== null && at !== undefined; at = this.get(at)?.parent)
            if (at === above) return true;
        return false;
    }

    // all nodes in preorder, each with its depth, its index and the number of its siblings with it
    walk(root) {
        const rows = [];
        if (!this.nodes.has(root)) return rows;
        const open = [[root, 1, -1, 1]];
        while (open.length) {
            const [path, level, index, size] = open.pop();
            const node = this.get(path);
            rows.push({node, level, index, size});
            for (let k = node.children.length - 1; k >= 0; k--)
                open.push([node.children[k], level + 1, k, node.children.length]);
        }
        return rows;
    }
}

const plainNode = (path, name, role) => ({
    path,
    parent: null,
    children: [],
    name,
    description: '',
    role,
    low: FIRST_STATES,
    high: 0,
    kinds: 0,
    text: ABSENT,
    caret: ABSENT,
    columns: ABSENT,
    marks: [],
    actions: [],
    relations: [],
    epoch: 0,
});

// the tree of an application that starts: its root alone
function startTree(name) {
    const tree = new Tree();
    tree.put(plainNode(ROOT_PATH, name, 75), null, 0);
    return tree;
}

// Texts are counted in characters, which are code points.
const isBasic = text => !/[\ud800-\udfff]/.test(text);
const characters = text => isBasic(text) ? text.length : Array.from(text).length;
const slice = (text, from, to) => isBasic(text) ? text.slice(from, to) : Array.from(text).slice(from, to).join('');
const withInsert = (text, at, put) => slice(text, 0, at) + put + slice(text, at);
const withDelete = (text, at, count) => slice(text, 0, at) + slice(text, at + count);

// What each step does to a tree; a text says why it does not apply, and then nothing is done.
const STEPS = {
    add(tree, step) {
        const parent = tree.get(pathOf(step.parent));
        if (!parent) return `no node ${step.parent}`;
        if (step.index > parent.children.length) return `node ${step.parent} has ${parent.children.length} children`;
        if (step.node !== tree.added + 1) return `the next number is ${tree.added + 1}`;
        const node = plainNode(pathOf(step.node), step.name, step.role);
        if (step.text !== null)
            Object.assign(node, {text: step.text, caret: 0, kinds: step.editable ? TEXT | EDITABLE : TEXT});
        if (step.columns !== null) Object.assign(node, {columns: step.columns, kinds: node.kinds | TABLE});
        if (step.select) node.kinds |= SELECTION;
        if (step.actions.length) Object.assign(node, {actions: step.actions, kinds: node.kinds | ACTION});
        tree.added += 1;
        tree.put(node, parent.path, step.index);
    },
    remove(tree, step) {
        if (step.node === 0) return 'the root stays';
        const gone = new Set(tree.remove(pathOf(step.node)));
        for (const node of tree.nodes.values()) {
            if (node.relations.some(([, target]) => gone.has(pathOf(target)))) {
                tree.own(node.path).relations = node.relations.filter(([, target]) => !gone.has(pathOf(target)));
            }
        }
    },
    move(tree, step) {
        const path = pathOf(step.node), parent = tree.get(pathOf(step.parent));
        if (!parent) return `no node ${step.parent}`;
        if (step.node === 0 || tree.isWithin(parent.path, path)) return 'a node cannot stand below itself';
        const others = parent.children.length - (parent.children.includes(path) ? 1 : 0);
        if (step.index > others) return `node ${step.parent} has ${others} other children`;
        tree.move(path, parent.path, step.index);
    },
    name: (tree, step) => {
        tree.own(pathOf(step.node)).name = step.text;
    },
    description: (tree, step) => {
        tree.own(pathOf(step.node)).description = step.text;
    },
    role: (tree, step) => {
        tree.own(pathOf(step.node)).role = step.role;
    },
    state: (tree, step) => setState(tree.own(pathOf(step.node)), step.state, step.on),
    insert(tree, step) {
        const node = tree.own(pathOf(step.node));
        if (node.text === ABSENT) return 'the node has no text';
        if (step.at > characters(node.text)) return 'the place is behind the text';
        node.text = withInsert(node.text, step.at, step.text);
        node.marks = [];
    },
    delete (tree, step) {
        const node = tree.own(pathOf(step.node));
        if (node.text === ABSENT) return 'the node has no text';
        const count = characters(step.text);
        if (slice(node.text, step.at, step.at + count) !== step.text) return 'another text stands there';
        node.text = withDelete(node.text, step.at, count);
        node.marks = [];
    },
    caret(tree, step) {
        const node = tree.own(pathOf(step.node));
        if (node.text === ABSENT || step.at > characters(node.text)) return 'the node has no text so long';
        node.caret = step.at;
    },
    marks: (tree, step) => {
        tree.own(pathOf(step.node)).marks = step.marks;
    },
    relate(tree, step) {
        const node = tree.own(pathOf(step.node));
        node.relations = node.relations.filter(([kind]) => kind !== step.kind)
                             .concat(step.targets.map(target => [step.kind, target]));
    },
};

// applyStep: a step done to a tree, or why it does not apply
function applyStep(tree, step) {
    if (step.what !== 'add' && !tree.get(pathOf(step.node))) return `no node ${step.node}`;
    return STEPS[step.what](tree, step) ?? null;
}

// a part as rows show it: absent, unknown, or its value
const partText = (part, written) => part === ABSENT ? '-' : part === UNKNOWN ? '?' : written(part);

// a node as a shown row
function rowText(node, index) {
    return `| ${shownPath(node.path)} ${node.parent === null ? '-' : shownPath(node.parent)} ${index} ${
               roleWord(node.role)} ${statesText(node)}` +
        ` ${quote(node.name)} ${quote(node.description)} ${kindLetters(node.kinds)} ${partText(node.text, quote)}` +
        ` ${partText(node.caret, String)} ${partText(node.columns, String)}`;
}
