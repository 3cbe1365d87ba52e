// The grammar of a trace: docs/PROFILE.md, "Events", "Shown rows" and "The text of a message". `readTrace` goes over
// all lines once and keeps numbers alone; `readEvent` reads one event where it is looked at.

class Refusal extends Error {
    constructor(line, message) {
        super(`line ${line}: ${message}`);
        this.line = line;
    }
}

const NUMBER = '(0|[1-9][0-9]{0,9})';
const QUOTED = '("[^"\\\\\\x00-\\x1f\\x7f]*(?:\\\\(?:["\\\\]|x(?:0[1-9a-f]|1[0-9a-f]|7f))[^"\\\\\\x00-\\x1f\\x7f]*)*")';
const APP = '(a(?:1[0-5]|[0-9]))', READER = '(r[0-3])', END = '(reg|a(?:1[0-5]|[0-9])|r[0-3])';
const PARTY = '(bus|reg|a(?:1[0-5]|[0-9])|r[0-3])';
const NAME = '([^ \\n]+)', ROLE = '([a-z]+(?:-[a-z]+)*|0|[1-9][0-9]{0,9})';

const whole = pattern => new RegExp(pattern, 'y');

// the forms of lines, each with the names of what stands in it
const EVENT_FORMS = {
    start: [[whole(`start ${APP} ${QUOTED}`), 'who', 'name'], [whole(`start ${READER}`), 'who']],
    got: [[whole(`got ${PARTY} ${PARTY} ${NUMBER}`), 'who', 'other', 'serial']],
    hears: [[whole(`hears ${APP} ${NAME} ${QUOTED}`), 'who', 'listener', 'pattern']],
    deaf: [[whole(`deaf ${APP} ${NAME} ${QUOTED}`), 'who', 'listener', 'pattern']],
    say: [[whole(`say ${READER} ${APP} ${QUOTED}`), 'who', 'other', 'text']],
    show: [
        [whole(`show ${READER} ${APP} none`), 'who', 'other'],
        [whole(`show ${READER} ${APP} ${NUMBER}`), 'who', 'other', 'rows']
    ],
    exit: [[whole(`exit ${END}`), 'who']],
    gone: [[whole(`gone ${READER} ${APP}`), 'who', 'other']],
    dropped: [[whole(`dropped ${END} ${NUMBER} ${NUMBER}`), 'who', 'queued', 'length']],
    busy: [[whole(`busy ${NUMBER}`), 'turns']],
    quiet: [[whole('quiet')]],
};
const KINDS =
    ['', 'start', 'step', 'sent', 'got', 'hears', 'deaf', 'say', 'show', 'exit', 'gone', 'dropped', 'busy', 'quiet'];
const KIND_CODES = new Map(KINDS.map((kind, code) => [kind, code]));

const STEP_FORMS = {
    add: whole(`${NUMBER} ${NUMBER} ${NUMBER} ${ROLE} ${QUOTED}(?: (text|static) ${QUOTED})?(?: columns ${
        NUMBER})?( select)?((?: action ${QUOTED}){0,8})`),
    remove: whole(NUMBER),
    move: whole(`${NUMBER} ${NUMBER} ${NUMBER}`),
    name: whole(`${NUMBER} ${QUOTED}`),
    description: whole(`${NUMBER} ${QUOTED}`),
    role: whole(`${NUMBER} ${ROLE}`),
    state: whole(`${NUMBER} ([a-z-]+) (on|off)`),
    insert: whole(`${NUMBER} ${NUMBER} ${QUOTED}`),
    delete: whole(`${NUMBER} ${NUMBER} ${QUOTED}`),
    caret: whole(`${NUMBER} ${NUMBER}`),
    marks: whole(`${NUMBER}((?: ${NUMBER} ${NUMBER})*)`),
    relate: whole(`${NUMBER} ${NUMBER}((?: ${NUMBER})*)`),
};
const STEP_HEAD = whole(`step ${APP} ([a-z]+) `);
const HEADER = whole(
    `(call|return|error|signal|type-${NUMBER}) ([lB]) ${NUMBER} ${NUMBER}(?: path=${NAME})?(?: interface=${NAME})?` +
    `(?: member=${NAME})?(?: error=${NAME})?(?: reply=${NUMBER})?(?: destination=${NAME})?(?: sender=${
        NAME})?(?: signature=${NAME})?`);
const SENT_HEAD = whole(`sent ${PARTY} `);
const BYTES = whole('= [0-9a-f]+');
const PATH_WORD = `(root|0|[1-9][0-9]{0,9}|/${'[A-Za-z0-9_/]*'})`;
const ROW = whole(
    `\\| ${PATH_WORD} (?:-|${PATH_WORD}) (-?[0-9]{1,10}) ${ROLE} ([0-9a-f]{16}) ${QUOTED} ${QUOTED} (-|[TELBA]{1,5})` +
    ` (-|\\?|${QUOTED}) (-|\\?|${NUMBER}) (-|\\?|${NUMBER})`);
const REFUSED = whole(`refused ${NUMBER} ([A-Za-z0-9]+)`);
const ATOM = /^(?:0|-?[1-9][0-9]{0,19}|true|false|0x[0-9a-f]{16})$/;

const PARTIES =
    ['bus', 'reg', ...Array.from({length: 16}, (_, k) => `a${k}`), ...Array.from({length: 4}, (_, k) => `r${k}`)];
const PARTY_CODES = new Map(PARTIES.map((party, code) => [party, code]));
const isApp = party => party[0] === 'a';
const isReader = party => /^r[0-3]$/.test(party);

// a message by its sender and its serial
const messageKey = (party, serial) => party * 2 ** 33 + serial;
const TYPE_WORDS = ['', 'call', 'return', 'error', 'signal'];

// matchAt: what a form finds from here up to just this end, or null
function matchAt(form, text, from, end) {
    form.lastIndex = from;
    const found = form.exec(text);
    return found && form.lastIndex === end ? found : null;
}

// the end of a quoted text that begins here, or -1
function endOfQuoted(text, from, end) {
    for (let at = from + 1; at < end; at++) {
        const code = text.charCodeAt(at);
        if (code === 34) return at + 1;
        if (code < 32 || code === 127) return -1;
        if (code !== 92) continue;
        const escaped = text.charCodeAt(at + 1);
        if (escaped === 34 || escaped === 92)
            at += 1;
        else if (/^x(?:0[1-9a-f]|1[0-9a-f]|7f)$/.test(text.slice(at + 1, at + 4)))
            at += 3;
        else
            return -1;
    }
    return -1;
}

const CLOSERS = {
    '[': ']',
    '(': ')',
    '{': '}',
    '<': '>'
};

// Whether the values of a body stand here up to just this end: `[`, the values, `]`, one space between two and none
// at brackets.
function isBody(text, from, end) {
    const open = [];
    let at = from;
    for (;;) {
        const sign = text[at];
        if (at >= end) return false;
        if (sign === '"') {
            at = endOfQuoted(text, at, end);
            if (at < 0) return false;
        } else if (sign in CLOSERS) {
            open.push(CLOSERS[sign]);
            at += 1;
            if (sign === '<') {
                const space = text.indexOf(' ', at);
                if (space < 0 || space >= end || !/^[a-z(){}]+$/.test(text.slice(at, space))) return false;
                at = space + 1;
                continue;
            }
            if (sign !== '[' || text[at] !== ']') continue;
        } else {
            let atomEnd = at;
            while (atomEnd < end && !' ])}>'.includes(text[atomEnd])) atomEnd += 1;
            if (!ATOM.test(text.slice(at, atomEnd))) return false;
            at = atomEnd;
        }
        while (open.length && at < end && text[at] === open[open.length - 1]) {
            open.pop();
            at += 1;
        }
        if (!open.length) return at === end;
        if (text[at] !== ' ') return false;
        at += 1;
    }
}

// Whether a message's text stands here up to just this end; what its header says is in `HEADER`'s groups.
function headerAt(text, from, end) {
    HEADER.lastIndex = from;
    const found = HEADER.exec(text);
    if (!found) return null;
    const behind = HEADER.lastIndex;
    if (behind === end) return found;
    return found[13] !== undefined && text[behind] === ' ' && text[behind + 1] === '[' && isBody(text, behind + 1, end)
        ? found
        : null;
}

// the places at which lines begin, and the length of the text, one more than a last line feed
function lineStarts(text) {
    let starts = new Uint32Array(1024), line = 1;
    for (let at = text.indexOf('\n'); at >= 0; at = text.indexOf('\n', at + 1)) {
        if (line + 2 >= starts.length) {
            const longer = new Uint32Array(2 * starts.length);
            longer.set(starts);
            starts = longer;
        }
        starts[line++] = at + 1;
    }
    if (text.length && text[text.length - 1] !== '\n') starts[line++] = text.length + 1;
    return starts.subarray(0, line);
}

// A trace: its text, where lines begin, and for each event, numbered from 1, what the time line draws of it.
class Trace {
    constructor(text) {
        this.text = text;
        this.lines = lineStarts(text);
        const most = this.lines.length;
        this.count = 0;
        this.line = new Uint32Array(most + 1);
        this.kind = new Uint8Array(most + 1);
        this.who = new Uint8Array(most + 1);
        this.other = new Uint8Array(most + 1);
        this.serial = new Uint32Array(most + 1);
        this.origin = new Uint32Array(most + 1);
        this.taken = new Uint32Array(most + 1);
        this.bytes = new Uint8Array(most + 1);
        this.type = new Uint8Array(most + 1);
        this.sents = new Map();
        this.hops = {from: [], to: [], sender: [], origin: []};
        this.says = [];
        this.members = new Set();
        this.parties = new Set();
        this.wire = false;
        this.refused = null;
    }

    lineText(line) { return this.text.slice(this.lines[line], this.lines[line + 1] - 1); }

    eventText(event) { return this.lineText(this.line[event]); }

    // the bytes' digits behind an event, or null
    digits(event) { return this.bytes[event] ? this.lineText(this.line[event] + 1).slice(2) : null; }
}

// readTrace: the trace that a text is, or a refusal at its line.
function readTrace(text) {
    const trace = new Trace(text);
    const last = trace.lines.length - 1;
    for (let line = 0; line < last;) line = readLine(trace, line);
    return trace;
}

// one event with all its lines; the number of the next line is given back
function readLine(trace, line) {
    const {text, lines} = trace;
    const from = lines[line], end = lines[line + 1] - 1;
    if (trace.refused) throw new Refusal(line + 1, 'nothing stands behind a refused line');
    const space = text.indexOf(' ', from);
    const word = text.slice(from, space < 0 || space > end ? end : space);
    if (word === 'refused') {
        const found = matchAt(REFUSED, text, from, end);
        if (!found) throw new Refusal(line + 1, 'no line of the form `refused LINE NAME`');
        trace.refused = {line: Number(found[1]), name: found[2]};
        return line + 1;
    }
    const code = KIND_CODES.get(word);
    if (!code)
        throw new Refusal(
            line + 1, word === '=' ? 'bytes stand behind `sent` and `got` alone' : 'no event begins with this word');
    const event = ++trace.count;
    trace.line[event] = line;
    trace.kind[event] = code;
    let next = line + 1;
    if (word === 'sent')
        readSent(trace, event, line);
    else if (word === 'got')
        readGot(trace, event, line);
    else if (word === 'step')
        readStepLine(trace, event, line);
    else {
        const found = readForm(text, word, from, end);
        if (!found) throw new Refusal(line + 1, `no event of the form that \`${word}\` has`);
        noteParties(trace, event, found);
        if (word === 'say') trace.says.push(event);
        if (word === 'show') next = readRows(trace, next, Number(found.rows ?? 0), line);
    }
    if (next < lines.length - 1 && (word === 'sent' || word === 'got') && text[lines[next]] === '=') {
        const digits = lines[next + 1] - lines[next] - 3;
        if (digits % 2 || !matchAt(BYTES, text, lines[next], lines[next + 1] - 1))
            throw new Refusal(next + 1, 'no bytes in pairs of hexadecimal digits');
        trace.bytes[event] = 1;
        trace.wire = true;
        next += 1;
    }
    return next;
}

function noteParties(trace, event, found) {
    for (const [part, into] of [['who', trace.who], ['other', trace.other]]) {
        if (found[part] === undefined) continue;
        into[event] = PARTY_CODES.get(found[part]) + 1;
        trace.parties.add(found[part]);
    }
}

function readForm(text, word, from, end) {
    for (const [form, ...names] of EVENT_FORMS[word]) {
        const found = matchAt(form, text, from, end);
        if (found) return Object.fromEntries(names.map((name, k) => [name, found[k + 1]]));
    }
    return null;
}

function readSent(trace, event, line) {
    const {text, lines} = trace;
    const end = lines[line + 1] - 1;
    SENT_HEAD.lastIndex = lines[line];
    const head = SENT_HEAD.exec(text);
    const found = head && headerAt(text, SENT_HEAD.lastIndex, end);
    if (!found)
        throw new Refusal(line + 1, head ? 'the text behind `sent` is no message' : 'no party stands behind `sent`');
    noteParties(trace, event, {who: head[1]});
    trace.serial[event] = Number(found[5]);
    if (found[8]) trace.members.add(found[8]);
    trace.type[event] = Math.max(TYPE_WORDS.indexOf(found[1]), 0);
    trace.sents.set(messageKey(trace.who[event], trace.serial[event]), event);
}

const GOT = EVENT_FORMS.got[0][0];

function readGot(trace, event, line) {
    const found = matchAt(GOT, trace.text, trace.lines[line], trace.lines[line + 1] - 1);
    if (!found) throw new Refusal(line + 1, 'no event of the form that `got` has');
    trace.who[event] = PARTY_CODES.get(found[1]) + 1;
    trace.other[event] = PARTY_CODES.get(found[2]) + 1;
    trace.parties.add(found[1]).add(found[2]);
    noteTaken(trace, event, Number(found[3]));
}

// a message that was taken, and the way that it went: from its sender to the bus, from the bus to its taker
function noteTaken(trace, event, serial) {
    trace.serial[event] = serial;
    const origin = trace.sents.get(messageKey(trace.other[event], serial)) ?? 0;
    trace.origin[event] = origin;
    if (!origin) return;
    const atBus = trace.who[event] === 1, ofBus = trace.other[event] === 1;
    const from = atBus || ofBus ? origin : trace.taken[origin];
    if (atBus) trace.taken[origin] = event;
    if (!from) return;
    trace.hops.from.push(from);
    trace.hops.to.push(event);
    trace.hops.sender.push(atBus ? trace.other[event] : 1);
    trace.hops.origin.push(origin);
}

function readStepLine(trace, event, line) {
    const step = stepAt(trace.text, trace.lines[line], trace.lines[line + 1] - 1);
    if (!step) throw new Refusal(line + 1, 'no step of a tree');
    noteParties(trace, event, {who: step.app});
}

function readRows(trace, first, count, line) {
    const {text, lines} = trace;
    for (let k = 0; k < count; k++) {
        if (first + k >= lines.length - 1) throw new Refusal(line + 1, `${count} rows are told and ${k} stand there`);
        const found = matchAt(ROW, text, lines[first + k], lines[first + k + 1] - 1);
        if (!found || !isRole(found[4])) throw new Refusal(first + k + 1, 'no row');
    }
    return first + count;
}

const isRole = word => ROLE_NUMBERS.has(word) || /^[0-9]+$/.test(word);

// the characters of a quoted text
function unquote(quoted) {
    const inner = quoted.slice(1, -1);
    if (!inner.includes('\\')) return inner;
    return inner.replace(
        /\\(?:x([0-9a-f]{2})|(.))/g, (all, hex, sign) => hex ? String.fromCharCode(parseInt(hex, 16)) : sign);
}

function quote(text) {
    return '"' +
        text.replace(/["\\\x01-\x1f\x7f]/g,
            sign => sign === '"' || sign === '\\' ? '\\' + sign
                                                  : '\\x' + sign.charCodeAt(0).toString(16).padStart(2, '0')) +
        '"';
}

const QUOTED_ALL = new RegExp(QUOTED, 'g');
const numbersIn = text => (text.match(/[0-9]+/g) ?? []).map(Number);

// stepAt: the step that a line tells, or null
function stepAt(text, from, end) {
    STEP_HEAD.lastIndex = from;
    const head = STEP_HEAD.exec(text);
    const form = head && STEP_FORMS[head[2]];
    const found = form && matchAt(form, text, STEP_HEAD.lastIndex, end);
    if (!found) return null;
    const step = {app: head[1], what: head[2], node: Number(found[1])};
    switch (step.what) {
        case 'add':
            if (!isRole(found[4])) return null;
            return Object.assign(step, {
                parent: Number(found[2]),
                index: Number(found[3]),
                role: roleOf(found[4]),
                name: unquote(found[5]),
                text: found[6] ? unquote(found[7]) : null,
                editable: found[6] === 'text',
                columns: found[8] === undefined ? null : Number(found[8]),
                select: found[9] !== undefined,
                actions: (found[10].match(QUOTED_ALL) ?? []).map(unquote),
            });
        case 'move':
            return Object.assign(step, {parent: Number(found[2]), index: Number(found[3])});
        case 'name':
        case 'description':
            return Object.assign(step, {text: unquote(found[2])});
        case 'role':
            return isRole(found[2]) ? Object.assign(step, {role: roleOf(found[2])}) : null;
        case 'state':
            return STATE_BITS.has(found[2])
                ? Object.assign(step, {state: STATE_BITS.get(found[2]), on: found[3] === 'on'})
                : null;
        case 'insert':
        case 'delete':
            return Object.assign(step, {at: Number(found[2]), text: unquote(found[3])});
        case 'caret':
            return Object.assign(step, {at: Number(found[2])});
        case 'marks': {
            const numbers = numbersIn(found[2]);
            return Object.assign(
                step, {marks: numbers.filter((_, k) => k % 2 === 0).map((at, k) => [at, numbers[2 * k + 1]])});
        }
        case 'relate':
            return Object.assign(step, {kind: Number(found[2]), targets: numbersIn(found[3])});
        default:
            return step;
    }
}

// readEvent: one event of a trace, with all that its lines say
function readEvent(trace, event) {
    const line = trace.line[event], from = trace.lines[line], end = trace.lines[line + 1] - 1;
    const kind = KINDS[trace.kind[event]];
    if (kind === 'step') return {kind, ...stepAt(trace.text, from, end), who: PARTIES[trace.who[event] - 1]};
    if (kind === 'sent')
        return {kind, who: PARTIES[trace.who[event] - 1], serial: trace.serial[event], header: headerOf(trace, event)};
    const found = {kind, ...readForm(trace.text, kind, from, end)};
    if (kind === 'show') {
        found.shown = found.rows === undefined
            ? null
            : Array.from({length: Number(found.rows)}, (_, k) => trace.lineText(line + 1 + k));
    }
    for (const part of ['name', 'pattern', 'text'])
        if (found[part] !== undefined) found[part] = unquote(found[part]);
    return found;
}

// headerOf: the fields of the message that a `sent` line tells, as texts
function headerOf(trace, event) {
    SENT_HEAD.lastIndex = trace.lines[trace.line[event]];
    SENT_HEAD.exec(trace.text);
    HEADER.lastIndex = SENT_HEAD.lastIndex;
    const found = HEADER.exec(trace.text);
    const body = trace.text.slice(HEADER.lastIndex, trace.lines[trace.line[event] + 1] - 1).trim();
    return {
        type: found[1],
        path: found[6],
        interface: found[7],
        member: found[8],
        error: found[9],
        reply: found[10],
        destination: found[11],
        sender: found[12],
        signature: found[13],
        body,
    };
}
