// What a reader holds, folded from the bytes of the messages that it took: the news in each, what a news makes of a
// view, and what a reply to a call of the reader's own tells (docs/READER.md; AT-SPI2, interfaces Cache and
// Event.Object).

const EVENT_INTERFACE = 'org.a11y.atspi.Event.Object', CACHE_INTERFACE = 'org.a11y.atspi.Cache',
      BUS_NAME = 'org.freedesktop.DBus';
const ITEMS_SIGNATURE = 'a((so)(so)(so)iiassusau)', ITEM_TYPE = '((so)(so)(so)iiassusau)', REFERENCE_TYPE = '(so)';
const CALL = 1, RETURN = 2, ERROR = 3, SIGNAL_TYPE = 4;

const referenceIn = value => value?.type === REFERENCE_TYPE ? {bus: value.v[0].v, path: value.v[1].v} : null;

const KINDS_BY_INTERFACE = new Map(KIND_NAMES.map(([bit, name]) => [`org.a11y.atspi.${name}`, bit]));

// an item: three references, index and count of children, interfaces, name, role, description and states
function itemIn(value) {
    if (value?.type !== ITEM_TYPE) return null;
    const [object, , parent, index, , interfaces, name, role, description, states] = value.v;
    return {
        object: referenceIn(object),
        parent: referenceIn(parent),
        index: index.v,
        name: name.v,
        role: role.v,
        description: description.v,
        kinds: interfaces.v.reduce((kinds, each) => kinds | (KINDS_BY_INTERFACE.get(each.v) ?? 0), 0),
        low: states.v[0]?.v ?? 0,
        high: states.v[1]?.v ?? 0,
    };
}

// the arguments of an event, where the first four are a text, two numbers and a variant; what follows them is ignored
function eventIn(body) {
    const [minor, one, two, value] = body;
    return minor?.type === 's' && one?.type === 'i' && two?.type === 'i' && value?.type === 'v'
        ? {minor: minor.v, one: one.v, two: two.v, value: value.v}
        : null;
}

// The news in a message of an application with this bus name; null where there is none.
function newsOf(bus, message) {
    if (message.type !== SIGNAL_TYPE) return null;
    if (message.interface === CACHE_INTERFACE) return cacheNews(bus, message);
    if (message.interface !== EVENT_INTERFACE || !message.path) return null;
    const event = eventIn(message.body);
    return event && eventNews(bus, message.path, message.member, event);
}

function cacheNews(bus, message) {
    if (message.body.length !== 1) return null;
    if (message.member === 'AddAccessible') {
        const item = itemIn(message.body[0]);
        return item && {news: 'item', item};
    }
    const object = message.member === 'RemoveAccessible' && referenceIn(message.body[0]);
    return object && object.bus === bus ? {news: 'removed', path: object.path} : null;
}

function eventNews(bus, path, member, event) {
    const {minor, one, two, value} = event;
    const text = value.type === 's' ? value.v : null;
    switch (member) {
        case 'ChildrenChanged': {
            const child = referenceIn(value);
            if (!child || child.bus !== bus) return null;
            if (minor === 'add') return {news: 'child added', child: child.path};
            return minor === 'remove' ? {news: 'child removed', path, index: one, child: child.path} : null;
        }
        case 'PropertyChange':
            if (minor === 'accessible-name' && text !== null) return {news: 'name', path, text};
            if (minor === 'accessible-description' && text !== null) return {news: 'description', path, text};
            return minor === 'accessible-role' && 'ui'.includes(value.type) && value.v >= 0
                ? {news: 'role', path, role: value.v}
                : null;
        case 'StateChanged': {
            const state = minor === 'default' ? 39 : STATE_BITS.get(minor);
            return state === undefined ? null : {news: 'state', path, state, on: one !== 0};
        }
        case 'TextChanged':
            if (text === null) return null;
            if (minor.startsWith('insert')) return {news: 'inserted', path, at: one, text};
            return minor.startsWith('delete') ? {news: 'deleted', path, at: one, length: two} : null;
        case 'TextCaretMoved':
            return {news: 'caret', path, at: one};
        default:
            return null;
    }
}

// the row of a node that was not known: its parts are unknown where its interfaces name them
const freshRow = item => ({
    path: item.object.path,
    parent: null,
    children: [],
    name: item.name,
    description: item.description,
    role: item.role,
    low: item.low,
    high: item.high,
    kinds: item.kinds,
    text: item.kinds & TEXT ? UNKNOWN : ABSENT,
    caret: item.kinds & TEXT ? UNKNOWN : ABSENT,
    columns: item.kinds & TABLE ? UNKNOWN : ABSENT,
    epoch: 0,
});

// load: the view of a list of items. The first item of each own object counts; kept is what the root reaches by
// parent, children by index and then by order.
function load(root, bus, items) {
    const first = new Map();
    for (const item of items)
        if (item.object.bus === bus && !first.has(item.object.path)) first.set(item.object.path, item);
    const children = new Map();
    for (const [path, item] of first) {
        if (path === root || item.parent.bus !== bus) continue;
        if (!children.has(item.parent.path)) children.set(item.parent.path, []);
        children.get(item.parent.path).push(item);
    }
    for (const list of children.values()) list.sort((a, b) => a.index - b.index);
    const view = new Tree();
    if (!first.has(root)) return view;
    view.put(freshRow(first.get(root)), null, 0);
    for (const open = [root]; open.length;) {
        const path = open.shift();
        for (const [k, item] of (children.get(path) ?? []).entries()) {
            view.put(freshRow(item), path, k);
            open.push(item.object.path);
        }
    }
    return view;
}

// the place among children that an index means: outside 0 to their count it is the last
const spot = (index, count) => index < 0 || index > count ? count : index;

function takeItem(view, root, bus, item) {
    if (item.object.bus !== bus) return;
    const {path} = item.object, known = view.get(path);
    const renew = () => {
        const {name, description, role, low, high, kinds} = item;
        Object.assign(view.own(path), {name, description, role, low, high, kinds});
    };
    if (path === root) return known && renew();
    const parent = item.parent.bus === bus ? view.get(item.parent.path) : undefined;
    if (!parent) return;
    if (!known) return view.put(freshRow(item), parent.path, spot(item.index, parent.children.length));
    if (view.isWithin(parent.path, path)) return;
    const others = parent.children.length - (known.parent === parent.path ? 1 : 0);
    view.move(path, parent.path, spot(item.index, others));
    renew();
}

// effect: what a news makes of a view
function effect(view, root, bus, news) {
    if (news.news === 'item') return takeItem(view, root, bus, news.item);
    if (news.news === 'child added') return;
    if (news.news === 'removed') {
        if (news.path !== root && view.get(news.path)) view.remove(news.path);
        return;
    }
    if (news.news === 'child removed') {
        if (news.index >= 0 && news.child !== root && view.get(news.path)?.children[news.index] === news.child)
            view.remove(news.child);
        return;
    }
    const row = view.own(news.path);
    if (!row) return;
    const isKnown = part => part !== ABSENT && part !== UNKNOWN;
    switch (news.news) {
        case 'name':
            row.name = news.text;
            break;
        case 'description':
            row.description = news.text;
            break;
        case 'role':
            row.role = news.role;
            break;
        case 'state':
            setState(row, news.state, news.on);
            break;
        case 'inserted':
            if (isKnown(row.text) && news.at >= 0 && news.at <= characters(row.text))
                row.text = withInsert(row.text, news.at, news.text);
            break;
        case 'deleted':
            if (isKnown(row.text) && news.at >= 0 && news.length >= 0 &&
                news.at + news.length <= characters(row.text)) {
                row.text = withDelete(row.text, news.at, news.length);
            }
            break;
        case 'caret':
            if (isKnown(row.caret) && news.at >= 0) row.caret = news.at;
            break;
        case 'text is':
            if (row.text !== ABSENT) row.text = news.text;
            break;
        case 'caret is':
            if (row.caret !== ABSENT) row.caret = news.at;
            break;
        case 'columns is':
            if (row.columns !== ABSENT) row.columns = news.count;
            break;
    }
}

const marksReload = (view, news) => news.news === 'child added' && !view.get(news.child);

const bodyType = message => message.body.map(value => value.type).join('');

// the items that a reply to GetItems tells; a misformed one, or an error, tells none
const itemsTold = message =>
    message.type === RETURN && bodyType(message) === ITEMS_SIGNATURE ? message.body[0].v.map(itemIn) : null;

// the part that a reply tells of a row
function partTold(part, path, message) {
    if (message.type !== RETURN) return null;
    const type = bodyType(message), value = message.body[0];
    if (part === 'text') return type === 's' ? {news: 'text is', path, text: value.v} : null;
    if (type !== 'v' || value.v.type !== 'i' || value.v.v < 0) return null;
    return part === 'caret' ? {news: 'caret is', path, at: value.v.v} : {news: 'columns is', path, count: value.v.v};
}

// what a reader's call asks for, where it is one whose reply changes what the reader knows
function questionOf(message) {
    const {member, destination, path, body} = message;
    if (member === 'GetChildren') return {asks: 'children'};
    if (member === 'GetItems') return {asks: 'items', name: destination};
    if (member === 'GetText') return {asks: 'part', name: destination, path, part: 'text'};
    if (member !== 'Get') return null;
    const part = {CaretOffset: 'caret', NColumns: 'columns'}[body[1]?.v];
    return part ? {asks: 'part', name: destination, path, part} : null;
}

const isUniqueName = name => /^:[A-Za-z0-9_-]+(\.[A-Za-z0-9_-]+)+$/.test(name);
const isBusName = name =>
    name.length <= 255 && (isUniqueName(name) || /^[A-Za-z_-][A-Za-z0-9_-]*(\.[A-Za-z_-][A-Za-z0-9_-]*)+$/.test(name));

// A reader: its calls that wait, the registry's name, and the applications in the order in which they became known.
class ReaderState {
    constructor() {
        this.waiting = new Map();
        this.registry = null;
        this.apps = [];
    }

    kept() {
        return {
            waiting: new Map(this.waiting),
            registry: this.registry,
            apps: this.apps.map(app => ({...app, view: app.view && app.view.kept(), refused: new Set(app.refused)})),
        };
    }

    static from(kept) {
        const reader = new ReaderState();
        reader.waiting = new Map(kept.waiting);
        reader.registry = kept.registry;
        reader.apps =
            kept.apps.map(app => ({...app, view: app.view && Tree.from(app.view), refused: new Set(app.refused)}));
        return reader;
    }

    named(name) { return this.apps.find(app => app.name === name); }

    sends(message) {
        const question = message.type === CALL && questionOf(message);
        if (question) this.waiting.set(message.serial, question);
    }

    takes(message) {
        const app = this.named(message.sender);
        if (app) app.last = message.serial;
        this.takesReply(message);
        this.takesEnd(message);
        this.takesChild(message);
        this.takesNews(message);
    }

    takesReply(message) {
        if (message.type !== RETURN && message.type !== ERROR) return;
        const question = this.waiting.get(message.reply);
        if (!question || question.name && message.sender !== question.name && message.sender !== BUS_NAME) return;
        this.waiting.delete(message.reply);
        if (question.asks === 'children') return this.takesChildren(message);
        const app = this.named(question.name);
        if (!app) return;
        if (question.asks === 'items') {
            const items = itemsTold(message);
            if (!items)
                this.forgets(question.name);
            else
                Object.assign(app, {view: load(app.root, app.name, items), reload: false, refused: new Set()});
            return;
        }
        const told = partTold(question.part, question.path, message);
        if (!told)
            app.refused.add(`${question.path} ${question.part}`);
        else if (app.view)
            effect(app.view, app.root, app.name, told);
    }

    takesChildren(message) {
        if (message.type !== RETURN || bodyType(message) !== 'a(so)') return;
        this.registry = message.sender;
        for (const value of message.body[0].v) this.knows(referenceIn(value));
    }

    knows(root) {
        if (!isBusName(root.bus) || this.named(root.bus)) return;
        this.apps.push({name: root.bus, root: root.path, view: null, reload: false, last: 0, refused: new Set()});
    }

    forgets(name) { this.apps = this.apps.filter(app => app.name !== name); }

    takesEnd(message) {
        if (message.type !== SIGNAL_TYPE || message.sender !== BUS_NAME || message.interface !== BUS_NAME ||
            message.member !== 'NameOwnerChanged')
            return;
        if (bodyType(message) === 'sss' && message.body[2].v === '') this.forgets(message.body[0].v);
    }

    takesChild(message) {
        if (message.type !== SIGNAL_TYPE || this.registry === null || message.sender !== this.registry) return;
        if (message.interface !== EVENT_INTERFACE || message.member !== 'ChildrenChanged') return;
        const event = eventIn(message.body);
        const child = event && event.minor === 'add' && referenceIn(event.value);
        if (child) this.knows(child);
    }

    takesNews(message) {
        const app = this.named(message.sender);
        const news = app?.view && newsOf(app.name, message);
        if (!news) return;
        if (marksReload(app.view, news)) app.reload = true;
        effect(app.view, app.root, app.name, news);
    }
}
