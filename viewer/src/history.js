// What stands behind each event: the applications' trees, and what the readers hold. Going on is one event at a time;
// going back begins at a kept state before. At most `MOST_KEPT` states are kept, at rising distances where a trace is
// long.

const MOST_KEPT = 128, FIRST_DISTANCE = 1024;

class State {
    constructor() {
        this.event = 0;
        this.trees = new Map();
        this.readers = new Map();
        this.ended = new Map();
        this.fault = null;
    }

    kept() {
        const each = (map, of) => new Map([...map].map(([key, value]) => [key, of(value)]));
        return {
            event: this.event,
            ended: new Map(this.ended),
            trees: each(this.trees, tree => tree.kept()),
            readers: each(this.readers, reader => reader.kept()),
        };
    }

    static from(kept) {
        const state = new State();
        state.event = kept.event;
        state.ended = new Map(kept.ended);
        for (const [app, tree] of kept.trees) state.trees.set(app, Tree.from(tree));
        for (const [name, reader] of kept.readers) state.readers.set(name, ReaderState.from(reader));
        return state;
    }
}

class History {
    constructor(trace) {
        this.trace = trace;
        this.state = new State();
        this.distance = FIRST_DISTANCE;
        this.keptStates = [];
        this.messages = new Map();
    }

    // the state behind an event
    at(event) {
        if (event < this.state.event) {
            const before = this.keptStates.filter(kept => kept.event <= event).pop();
            this.state = before ? State.from(before) : new State();
        }
        while (this.state.event < event) this.goOn();
        return this.state;
    }

    goOn() {
        const {state} = this;
        state.event += 1;
        state.fault = this.play(state.event);
        const last = this.keptStates.length ? this.keptStates[this.keptStates.length - 1].event : 0;
        if (state.event >= last + this.distance) this.keep();
    }

    keep() {
        this.keptStates.push(this.state.kept());
        if (this.keptStates.length < MOST_KEPT) return;
        this.distance *= 2;
        this.keptStates = this.keptStates.filter((kept, k) => k % 2 === 1);
    }

    // the message whose bytes stand behind an event, or why they are none
    message(event) {
        try {
            return {message: decodeMessage(bytesOf(this.trace.digits(event)))};
        } catch (fault) {
            return {fault: fault.message};
        }
    }

    // one event: what it does to trees and readers; what is wrong with it is given back
    play(event) {
        const {trace, state} = this;
        const kind = KINDS[trace.kind[event]], who = PARTIES[trace.who[event] - 1];
        switch (kind) {
            case 'start':
                if (isApp(who))
                    state.trees.set(who, startTree(readEvent(trace, event).name));
                else
                    state.readers.set(who, new ReaderState());
                return null;
            case 'step': {
                const step = stepAt(trace.text, trace.lines[trace.line[event]], trace.lines[trace.line[event] + 1] - 1);
                if (!state.trees.has(who)) return `${who} did not start: this step is of no tree`;
                const why = applyStep(state.trees.get(who), step);
                return why && `this step does not apply: ${why}`;
            }
            case 'exit':
            case 'dropped':
                state.ended.set(who, event);
                return null;
            case 'sent':
            case 'got': {
                if (!isReader(who) || !trace.bytes[event] || !state.readers.has(who)) return null;
                const {message, fault} = this.message(event);
                if (fault) return `these bytes are no message: ${fault}`;
                if (kind === 'sent')
                    state.readers.get(who).sends(message);
                else
                    state.readers.get(who).takes(message);
                return null;
            }
            default:
                return null;
        }
    }
}

// The bus names of parties: the text of the return to a party's Hello, which is the first that it takes of the bus.
function namesOf(trace, history) {
    const names = new Map([['reg', ':1.0']]);
    for (let event = 1; event <= trace.count; event++) {
        if (KINDS[trace.kind[event]] !== 'got' || trace.other[event] !== 1 || trace.who[event] === 1 ||
            !trace.bytes[event])
            continue;
        const who = PARTIES[trace.who[event] - 1];
        if (names.has(who)) continue;
        const {message} = history.message(event);
        if (message?.type === RETURN && message.body[0]?.type === 's') names.set(who, message.body[0].v);
        if (names.size > trace.parties.size) break;
    }
    return names;
}

// the rows that a reader holds of an application, or null where it holds nothing
function heldRows(state, reader, appName) {
    const app = state.readers.get(reader)?.named(appName);
    return app?.view ? app.view.walk(app.root) : null;
}
