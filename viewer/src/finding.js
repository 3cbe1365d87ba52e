// Filters, the search, and the verdict of `audit`.

// the message that an event is of: its Sent, or 0
const originOf = (trace, event) => KINDS[trace.kind[event]] === 'sent' ? event : trace.origin[event];

// whether an event passes: by party, by the path of its message or of its step's node, by its message's member
function filterOf(page, {party, path, member}) {
    if (!party && !path && !member) return null;
    const {trace, names} = page, code = party ? PARTY_CODES.get(party) + 1 : 0;
    const wanted = member.toLowerCase(),
          number = /^[0-9]+$/.test(path) || path === 'root' ? pathOf(path === 'root' ? 0 : Number(path)) : null;
    const hasPath = of => of !== undefined && (number !== null ? of === number : of.includes(path));
    return event => {
        if (code && trace.who[event] !== code && trace.other[event] !== code) return false;
        if (!path && !member) return true;
        const origin = originOf(trace, event);
        if (origin) {
            const header = headerOf(trace, origin);
            const call = header.member || !header.reply ? 0 : answeredCall(trace, names, origin);
            const meant = call ? headerOf(trace, call) : header;
            return (!path || hasPath(meant.path)) && (!member || (meant.member ?? '').toLowerCase().includes(wanted));
        }
        if (member || KINDS[trace.kind[event]] !== 'step') return false;
        return hasPath(pathOf(readEvent(trace, event).node));
    };
}

// the events in whose lines a text stands, bytes left out
function eventsWith(trace, words) {
    const found = [];
    if (!words) return found;
    let event = 1;
    for (let at = trace.text.indexOf(words); at >= 0; at = trace.text.indexOf(words, at + 1)) {
        while (event < trace.count && trace.lines[trace.line[event + 1]] <= at) event += 1;
        const line = trace.bytes[event] ? trace.lines[trace.line[event] + 1] : Infinity;
        if (at < line && found[found.length - 1] !== event) found.push(event);
        const next = event < trace.count ? trace.lines[trace.line[event + 1]] : trace.text.length;
        at = Math.max(at, next - 2);
    }
    return found;
}

// A verdict as `audit` writes it: `unlawful K` and what was due, `lawful E`, `refused LINE NAME`; null where it is
// none.
function verdictOf(text) {
    const [first, second] = text.trim().split('\n');
    const unlawful = /^unlawful ([1-9][0-9]{0,9})$/.exec(first ?? '');
    if (unlawful) {
        if (second !== undefined && !second.startsWith('due ')) return null;
        return {event: Number(unlawful[1]), due: second === undefined ? null : second.slice(4)};
    }
    const other = /^(?:lawful [0-9]+|refused [0-9]+ [A-Za-z0-9]+|no trace)$/.exec(first ?? '');
    return other ? {words: first} : null;
}

function verdictParts(trace, verdict) {
    if (verdict.words) return [make('strong', {}, `audit: ${verdict.words}`)];
    const missing = verdict.event > trace.count;
    return [
        make('strong', {}, `audit: unlawful ${verdict.event}`),
        make('p', {}, missing ? 'The trace ends before this event. ' : 'Here stands ',
            missing ? null : make('code', {}, trace.eventText(verdict.event).slice(0, 400))),
        make('p', {},
            verdict.due === null            ? 'What was due is not told.'
                : verdict.due === 'nothing' ? 'Due here was nothing.'
                                            : 'Due here was ',
            verdict.due && verdict.due !== 'nothing' ? make('code', {}, verdict.due.slice(0, 400)) : null),
    ];
}
