// Segments: which events are those of which line of the script. With the script they are found line by line: how many
// steps an edit makes is told by the tree before it, and how many messages a move completes by their lengths. Without
// it they are what the trace's text tells: a start, an exit, a shown view and a user's call stand alone, steps
// outside of messages are an edit, and messages up to `busy`, `quiet` or the next of those are one run.

const USER_CALLS = new Set([
    'SetCaretOffset', 'InsertText', 'DeleteText', 'SetTextContents', 'SelectChild', 'DeselectChild', 'SelectAll',
    'ClearSelection', 'DoAction'
]);

// the lines of a script, without a last empty one
function scriptLines(script) {
    const lines = script.split('\n');
    if (lines[lines.length - 1] === '') lines.pop();
    return lines;
}

const LINE_WORDS =
    ['quota', 'app', 'reader', 'edit', 'call', 'swap', 'exit', 'leave', 'bytes', 'turns', 'drain', 'show'];

const kindAt = (trace, event) => event <= trace.count ? KINDS[trace.kind[event]] : 'end';
const whoAt = (trace, event) => PARTIES[trace.who[event] - 1];

function isUserCall(trace, event) {
    return kindAt(trace, event) === 'sent' && isReader(whoAt(trace, event)) &&
        USER_CALLS.has(headerOf(trace, event).member);
}

// The event behind a cause that begins here (a message that is taken, or an end that the bus takes) and all that it
// brings.
function behindCause(trace, event) {
    let repliesDue = false;
    const taker = kindAt(trace, event) === 'got' ? whoAt(trace, event) : 'bus';
    if (kindAt(trace, event) === 'got') {
        const origin = trace.origin[event];
        repliesDue = isApp(taker) && (!origin || headerOf(trace, origin).type === 'call');
        event += 1;
    } else if (kindAt(trace, event) !== 'sent' || taker !== 'bus')
        return event;
    for (;; event++) {
        const kind = kindAt(trace, event);
        if (kind === 'step') {
            if (!repliesDue || whoAt(trace, event) !== taker) return event;
        } else if (kind === 'sent') {
            if (isUserCall(trace, event)) return event;
            if (repliesDue && whoAt(trace, event) === taker && 'return error'.includes(headerOf(trace, event).type))
                repliesDue = false;
        } else if (!['hears', 'deaf', 'say', 'gone', 'dropped'].includes(kind))
            return event;
    }
}

// whether a cause of a move or a turn begins here
const isCause = (trace, event) =>
    kindAt(trace, event) === 'got' || kindAt(trace, event) === 'sent' && whoAt(trace, event) === 'bus';

// the event behind an application's signals from here on
function behindSignals(trace, event, app) {
    while (kindAt(trace, event) === 'sent' && whoAt(trace, event) === app && headerOf(trace, event).type === 'signal')
        event += 1;
    return event;
}

// segmentsByTrace: what the trace's text alone tells
function segmentsByTrace(trace) {
    const segments = [];
    for (let event = 1; event <= trace.count;) {
        const from = event, kind = kindAt(trace, event), who = whoAt(trace, event);
        let label;
        if (kind === 'start') {
            label = isApp(who) ? `app ${quote(readEvent(trace, event).name)}` : 'reader';
            event += 1;
            if (kindAt(trace, event) === 'sent' && whoAt(trace, event) === who) event += 1;
        } else if (kind === 'step') {
            label = `edit ${who}`;
            while (kindAt(trace, event) === 'step' && whoAt(trace, event) === who)
                event = behindSignals(trace, event + 1, who);
        } else if (kind === 'exit') {
            label = isReader(who) ? `leave ${who}` : `exit ${who}`;
            event += 1;
        } else if (kind === 'show') {
            label = `show ${who} ${PARTIES[trace.other[event] - 1]}`;
            event += 1;
        } else if (isUserCall(trace, event)) {
            label = `call ${who}`;
            event += 1;
        } else {
            while (isCause(trace, event)) event = behindCause(trace, event);
            if (kindAt(trace, event) === 'busy')
                label = `turns, ${trace.eventText(event++)}`;
            else if (kindAt(trace, event) === 'quiet')
                label = `drain, ${trace.eventText(event++)}`;
            else
                label = 'bytes or turns';
            if (event === from) event += 1;
        }
        segments.push({from, to: event, line: 0, label});
    }
    return segments;
}

// segmentsByScript: a segment for each line that is not empty; where the lines and the trace do not fit, `misfit`
// says at which.
function segmentsByScript(trace, script) {
    const segments = [], walk = new ScriptWalk(trace);
    let misfit = null;
    for (const [k, label] of scriptLines(script).entries()) {
        const from = walk.event;
        if (trace.refused?.line === k + 1) {
            segments.push({from, to: from, line: k + 1, label, refused: trace.refused.name});
            break;
        }
        if (label === '') continue;
        if (from > trace.count && label[0] !== '#' && KINDS[trace.kind[trace.count]] === 'dropped') break;
        const why = walk.line(label);
        if (why) {
            misfit = {line: k + 1, event: walk.event, why};
            walk.event = from;
            break;
        }
        segments.push({from, to: walk.event, line: k + 1, label});
    }
    if (walk.event <= trace.count) {
        misfit ??= {line: scriptLines(script).length + 1, event: walk.event, why: 'the script ends here'};
        segments.push({from: walk.event, to: trace.count + 1, line: 0, label: 'events that the script does not tell'});
    }
    return {segments, misfit};
}

// A walk over a trace's events along the lines of its script.
class ScriptWalk {
    constructor(trace) {
        this.trace = trace;
        this.event = 1;
        this.played = 0;
        this.trees = new Map();
        this.marks = new Map();
        this.taken = null;
    }

    // the trees before the event at which the walk stands
    catchUp() {
        const {trace, trees} = this;
        for (; this.played < this.event - 1;) {
            const event = ++this.played;
            const kind = kindAt(trace, event);
            if (kind !== 'start' && kind !== 'step') continue;
            const read = readEvent(trace, event);
            if (kind === 'start' && isApp(read.who)) trees.set(read.who, startTree(read.name));
            if (kind === 'step' && trees.has(read.who)) applyStep(trees.get(read.who), read);
        }
    }

    // one line's events are passed; why they do not fit, or null
    line(text) {
        const [word, ...words] = text.split(' ');
        if (text[0] === '#' || word === 'quota' || word === 'swap') return null;
        if (!LINE_WORDS.includes(word)) return 'this is no line of a script';
        return this[word](words, text);
    }

    expect(kind, who) {
        const {trace, event} = this;
        if (kindAt(trace, event) !== kind || who !== undefined && whoAt(trace, event) !== who) {
            return `\`${kind}${who === undefined ? '' : ' ' + who}\` is due at event ${event}`;
        }
        this.event += 1;
        return null;
    }

    app() {
        const who = event => whoAt(this.trace, event);
        return this.expect('start') ?? this.expect('sent', who(this.event - 1));
    }

    reader() { return this.app(); }

    exit([who]) { return this.expect('exit', who); }

    leave([who]) { return this.expect('exit', who); }

    show([reader]) { return this.expect('show', reader); }

    call([reader]) { return this.expect('sent', reader); }

    edit([app, ...words], text) {
        this.catchUp();
        const tree = this.trees.get(app);
        if (!tree) return `${app} is not there`;
        let count;
        try {
            count = stepCount(tree, words, text);
        } catch {
            return 'this edit is not understood';
        }
        for (; count > 0; count--) {
            const why = this.expect('step', app);
            if (why) return why;
            this.event = behindSignals(this.trace, this.event, app);
        }
        return null;
    }

    drain() {
        while (isCause(this.trace, this.event)) this.event = behindCause(this.trace, this.event);
        return this.expect('quiet');
    }

    turns([count]) {
        let left = Number(count);
        while (left > 0 && isCause(this.trace, this.event)) {
            this.event = behindCause(this.trace, this.event);
            left -= 1;
        }
        if (kindAt(this.trace, this.event) === 'busy') this.event += 1;
        return null;
    }

    // A move of bytes: as many messages as it completes, by their lengths; without --wire as many as stand here.
    bytes([party, way, count]) {
        const {trace} = this, link = `${party} ${way}`;
        let left = Number(count);
        if (way === 'up' && kindAt(trace, this.event) === 'sent' && whoAt(trace, this.event) === 'bus') {
            if (left > 0) this.event = behindCause(trace, this.event);
            return null;
        }
        const takes = way === 'up' ? event => whoAt(trace, event) === 'bus' && PARTIES[trace.other[event] - 1] === party
                                   : event => whoAt(trace, event) === party;
        while (kindAt(trace, this.event) === 'got' && takes(this.event)) {
            if (trace.wire) {
                const missing = this.lengthAt(this.event) - (this.marks.get(link) ?? 0);
                if (missing > left) break;
                left -= missing;
                this.marks.set(link, 0);
            }
            this.event = behindCause(trace, this.event);
        }
        if (trace.wire && left > 0 && this.hasMore(takes)) this.marks.set(link, (this.marks.get(link) ?? 0) + left);
        return null;
    }

    lengthAt(event) {
        const line = this.trace.line[event] + 1;
        return this.trace.bytes[event] ? (this.trace.lines[line + 1] - this.trace.lines[line] - 3) / 2 : 0;
    }

    // whether this link's next message, which is taken later, is one that waits here already
    hasMore(takes) {
        const {trace} = this;
        for (let event = this.event; event <= trace.count; event++) {
            if (kindAt(trace, event) !== 'got' || !takes(event)) continue;
            const origin = trace.origin[event];
            const put = whoAt(trace, event) === 'bus' || whoAt(trace, origin) === 'bus' ? origin : trace.taken[origin];
            return put > 0 && put < this.event;
        }
        return false;
    }
}

// How many steps an edit makes of a tree (docs/PROFILE.md, the edits): none where all is so already.
function stepCount(tree, words, text) {
    const [what, ...rest] = words;
    const node = tree.get(pathOf(Number(rest[0])));
    const quoted = (text.match(QUOTED_ALL) ?? []).map(unquote);
    const has = (each, state) => hasState(each, STATE_BITS.get(state));
    const one = condition => condition ? 1 : 0;
    const focusing = () => [...tree.nodes.values()].filter(each => each !== node && has(each, 'focused')).length +
        one(!has(node, 'focused'));
    switch (what) {
        case 'insert':
        case 'remove':
        case 'mark':
            return 1;
        case 'move': {
            const parent = tree.get(node.parent);
            return one(
                parent.path !== pathOf(Number(rest[1])) || parent.children.indexOf(node.path) !== Number(rest[2]));
        }
        case 'name':
            return one(node.name !== quoted[0]);
        case 'describe':
            return one(node.description !== quoted[0]);
        case 'role':
            return one(node.role !== roleOf(rest[1]));
        case 'state':
            return one(has(node, rest[1]) !== (rest[2] === 'on'));
        case 'focus':
            return focusing();
        case 'put':
            return quoted[0] === '' ? 0 : 1 + one(node.caret > Number(rest[1]));
        case 'type':
            return quoted[0] === '' ? 0 : 2;
        case 'cut':
            return rest[1] === rest[2] ? 0 : 1 + one(node.caret > Number(rest[1]));
        case 'caret':
            return one(node.caret !== Number(rest[1]));
        case 'unmark':
            return one(node.marks.length > 0);
        case 'select': {
            const children = node.children.map(path => tree.get(path)), chosen = children[Number(rest[1])];
            const others = has(node, 'multiselectable')
                ? []
                : children.filter(child => child !== chosen && has(child, 'selected'));
            return others.length + one(!has(chosen, 'selected'));
        }
        case 'deselect':
            return one(has(tree.get(node.children[Number(rest[1])]), 'selected'));
        case 'press':
            return {toggle: () => 1,
                expand: () => 1,
                press: () => 1 + one(!has(node, 'pressed')),
                focus: focusing}[node.actions[Number(rest[1])]]
                       ?.() ??
                0;
        case 'relate':
        case 'unrelate': {
            const there =
                node.relations.some(([kind, target]) => kind === Number(rest[1]) && target === Number(rest[2]));
            return one(there !== (what === 'relate'));
        }
        default:
            throw new Error(what);
    }
}
