// The panels beside the trees: the message under the cursor with its bytes, the lines spoken so far, and the chosen
// node.

const FIRST_ITEMS = 64, MORE_ITEMS = 2000, SPOKEN_IN_SIGHT = 200;

const section = (title, ...children) => make('div', {class: 'part'}, make('h3', {}, title), ...children);

// what an event is, whole: its line, its way, its message and what is wrong with it
function messagePanel(page, event) {
    const {trace, history} = page;
    const kind = KINDS[trace.kind[event]];
    const parts = [make('p', {class: 'words'}, eventWords(trace, page.names, event) + '.')];
    if (history.state.fault)
        parts.push(make('p', {class: 'fault'}, `Not as a trace should be: ${history.state.fault}.`));
    const text = trace.eventText(event);
    parts.push(make('pre', {class: 'line'}, text.length > 4000 ? text.slice(0, 4000) + ' …' : text));
    if (kind === 'show') parts.push(...shownPart(page, event));
    if (kind === 'sent' || kind === 'got') parts.push(...messageParts(page, event, kind));
    return parts;
}

function shownPart(page, event) {
    const read = readEvent(page.trace, event);
    const list = read.shown ? make('pre', {class: 'line'}, read.shown.join('\n')) : null;
    if (!page.trace.wire) return [list];
    const held = heldRows(page.history.state, read.who, page.names.get(read.other));
    const folded = held && held.map(row => rowText(row.node, row.index));
    const same = JSON.stringify(folded) === JSON.stringify(read.shown);
    return [
        list,
        make('p', {class: same ? 'words' : 'fault'},
            same ? 'These are the rows that the bytes of the messages taken make.'
                 : 'The bytes of the messages taken make other rows than these.')
    ];
}

function messageParts(page, event, kind) {
    const {trace} = page;
    const origin = kind === 'sent' ? event : trace.origin[event];
    const parts = [section('Way', wayList(page, origin, event))];
    if (!trace.bytes[event]) {
        parts.push(make('p', {class: 'words'},
            trace.wire ? 'No bytes stand behind this event.' : 'The bytes of messages are there with --wire.'));
        if (origin)
            parts.push(
                section('Fields', fieldTable(Object.entries(headerOf(trace, origin)).filter(([, value]) => value))));
        return parts;
    }
    const bytes = bytesOf(trace.digits(event)), items = [];
    try {
        const message = decodeMessage(bytes, (from, to, what, value) => items.push({from, to, what, value}));
        if (kind === 'sent' &&
            trace.eventText(event) !== `sent ${PARTIES[trace.who[event] - 1]} ${messageText(message)}`) {
            parts.push(make(
                'p', {class: 'fault'}, 'Not as a trace should be: the bytes spell another message than the line.'));
        }
        if (kind === 'got' && message.serial !== trace.serial[event])
            parts.push(
                make('p', {class: 'fault'}, `Not as a trace should be: the bytes have serial ${message.serial}.`));
        parts.push(section('Message', fieldTable(fieldsOf(message))));
    } catch (fault) {
        parts.push(make('p', {class: 'fault'}, `These bytes are no message: ${fault.message}.`));
    }
    parts.push(section(`Bytes, ${counted(bytes.length)}`, byteTable(bytes, items)));
    return parts;
}

// where a message was sent and taken, as links
function wayList(page, origin, event) {
    const {trace} = page;
    if (!origin) return make('p', {class: 'faint'}, 'No event of this trace sent it.');
    const at = (stop, words) =>
        make('li', {class: stop === event ? 'here' : ''}, eventLink(stop, `${stop}`), ` ${words}`);
    const stops = [at(origin, `sent by ${partyWords(PARTIES[trace.who[origin] - 1])}`)];
    const takers = [];
    if (trace.taken[origin]) stops.push(at(trace.taken[origin], 'taken by the bus'));
    for (let hop = page.timeLine.ways.endingFrom(origin); hop < trace.hops.to.length; hop++) {
        if (trace.hops.origin[hop] === origin && trace.hops.to[hop] !== trace.taken[origin])
            takers.push(trace.hops.to[hop]);
        if (takers.length > 20 || trace.hops.to[hop] > origin + 20000) break;
    }
    for (const taker of takers) stops.push(at(taker, `taken by ${partyWords(PARTIES[trace.who[taker] - 1])}`));
    if (!takers.length)
        stops.push(make('li', {class: 'faint'},
            trace.taken[origin] || PARTIES[trace.who[origin] - 1] === 'bus'
                ? 'handed to nobody who takes it in this trace'
                : 'not taken in this trace'));
    const call = TYPE_WORDS[trace.type[origin]] !== 'call' ? answeredCall(trace, page.names, origin) : 0;
    if (call)
        stops.push(make('li', {}, 'answers ', eventLink(call, `${call}`), ` ${aboutMessage(trace, page.names, call)}`));
    return make('ul', {class: 'way'}, stops);
}

function fieldsOf(message) {
    const fields = [
        ['type', MESSAGE_TYPES[message.type] || message.type],
        ['byte order', message.order === 'l' ? 'l, little-endian' : 'B, big-endian'], ['flags', message.flags],
        ['serial', message.serial]
    ];
    for (const name of FIELD_NAMES.slice(1, 9))
        if (message[name] !== undefined) fields.push([name, message[name]]);
    for (const [k, value] of message.body.entries()) {
        const text = valueText(value);
        fields.push([`argument ${k + 1}`, text.length > 1500 ? text.slice(0, 1500) + ' …' : text, value.type]);
    }
    return fields;
}

function fieldTable(fields) {
    return make('table', {class: 'fields'},
        make('tbody', {},
            fields.map(([name, value, type]) => make('tr', {}, make('th', {scope: 'row'}, name),
                           make('td', {}, String(value), type ? make('span', {class: 'type'}, type) : null)))));
}

const hexOf = (bytes, from, to) =>
    Array.from(bytes.subarray(from, Math.min(to, from + 16)), byte => byte.toString(16).padStart(2, '0')).join(' ') +
    (to - from > 16 ? ' …' : '');

// each item of a message where it lies; what no item covers stands there as bytes alone
function byteTable(bytes, items) {
    const all = [];
    let at = 0;
    for (const item of items) {
        all.push(item);
        at = item.to;
    }
    for (; at < bytes.length; at += 16)
        all.push({from: at, to: Math.min(at + 16, bytes.length), what: 'not read', value: ''});
    const body = make('tbody');
    const row = item =>
        make('tr', {class: item.what === 'padding' ? 'padding' : null}, make('td', {class: 'at'}, String(item.from)),
            make('td', {class: 'hex'}, hexOf(bytes, item.from, item.to)), make('td', {}, item.what),
            make('td', {class: 'value'}, item.value.length > 300 ? item.value.slice(0, 300) + ' …' : item.value));
    let shown = 0;
    const more = make('button', {type: 'button', class: 'more'});
    const grow = count => {
        body.append(...all.slice(shown, shown + count).map(row));
        shown = Math.min(all.length, shown + count);
        more.hidden = shown === all.length;
        more.textContent =
            `Show ${counted(Math.min(MORE_ITEMS, all.length - shown))} of ${counted(all.length - shown)} more items`;
    };
    more.addEventListener('click', () => grow(MORE_ITEMS));
    grow(FIRST_ITEMS);
    const head = make('thead', {},
        make('tr', {}, ['Place', 'Bytes', 'Item', 'Value'].map(title => make('th', {scope: 'col'}, title))));
    return make('div', {}, make('table', {class: 'bytes'}, head, body), more);
}

// how many lines are spoken up to an event
function spokenUntil(trace, event) {
    let low = 0, high = trace.says.length;
    while (low < high) {
        const middle = (low + high) >> 1;
        if (trace.says[middle] <= event)
            low = middle + 1;
        else
            high = middle;
    }
    return low;
}

// so many spoken lines, the last of them at the end
function spokenPanel(page, count) {
    const {trace} = page;
    if (!count)
        return [make('p', {class: 'faint'},
            trace.says.length ? `Nothing up to here; the first line is spoken at event ${trace.says[0]}.`
                              : 'Nothing is spoken in this trace.')];
    const from = Math.max(0, count - SPOKEN_IN_SIGHT);
    const lines = trace.says.slice(from, count).map(say => {
        const read = readEvent(trace, say);
        return make('li', {}, eventLink(say), make('span', {class: 'who'}, `${read.who} of ${read.other}`),
            make('q', {}, read.text));
    });
    return [
        from ? make('p', {class: 'faint'}, `${plural(from, 'line')} before these`) : null,
        make('ol', {class: 'spoken', start: from + 1}, lines)
    ];
}
