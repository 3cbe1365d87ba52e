// What an event is called: in the time line, and in whole words for who listens.

const typeOf = (trace, origin) => TYPE_WORDS[trace.type[origin]] || 'message';

// the call that a return or an error answers, or 0
function answeredCall(trace, names, event) {
    const {reply, destination} = headerOf(trace, event);
    if (reply === undefined) return 0;
    for (const [party, name] of names) {
        if (name === destination) return trace.sents.get(messageKey(PARTY_CODES.get(party) + 1, Number(reply))) ?? 0;
    }
    return 0;
}

// what a message is about: its member, and the minor event of a signal; of a reply the member that it answers
function aboutMessage(trace, names, origin) {
    const header = headerOf(trace, origin);
    if (header.member) {
        const minor = header.interface === EVENT_INTERFACE ? /^\["([a-z-]*)"/.exec(header.body)?.[1] : '';
        const node = header.path?.startsWith(BASE_PATH) ? ` of ${shownPath(header.path)}` : '';
        return `${header.member}${minor ? ` ${minor}` : ''}${node}`;
    }
    const call = answeredCall(trace, names, origin);
    return `to ${call ? headerOf(trace, call).member : `call ${header.reply}`}${
        header.error ? `, ${header.error.split('.').pop()}` : ''}`;
}

// eventSummary: an event in short, behind its kind
function eventSummary(trace, names, event) {
    const kind = KINDS[trace.kind[event]], who = PARTIES[trace.who[event] - 1];
    const rest = () => trace.eventText(event).slice(kind.length + 1);
    const about = origin =>
        `${trace.type[origin] === 4 ? '' : `${typeOf(trace, origin)} `}${aboutMessage(trace, names, origin)}`;
    if (kind === 'sent') return `${who}: ${about(event)} #${trace.serial[event]}`;
    if (kind !== 'got') return rest();
    const origin = trace.origin[event], other = PARTIES[trace.other[event] - 1];
    return `${who} ← ${other}: ${origin ? about(origin) : 'a message that no event sent'} #${trace.serial[event]}`;
}

const partyWords = party => party === 'bus' ? 'the bus' : party === 'reg' ? 'the registry' : party;

// eventWords: an event in a sentence
function eventWords(trace, names, event) {
    const kind = KINDS[trace.kind[event]], who = partyWords(PARTIES[trace.who[event] - 1]);
    const other = partyWords(PARTIES[trace.other[event] - 1]);
    const read = readEvent(trace, event);
    switch (kind) {
        case 'start':
            return `${who} starts${read.name === undefined ? '' : `, named ${read.name}`}`;
        case 'step':
            return `the tree of ${who} changes: ${trace.eventText(event).replace(/^step \S+ /, '')}`;
        case 'sent':
            return `${who} sends the ${typeOf(trace, event)} ${aboutMessage(trace, names, event)}, number ${
                read.serial}`;
        case 'got': {
            const origin = trace.origin[event];
            return `${who} takes ${
                origin ? `the ${typeOf(trace, origin)} ${aboutMessage(trace, names, origin)}`
                       : 'a message'} of ${other}, number ${read.serial}`;
        }
        case 'hears':
            return `${who} learns that ${read.listener} listens for ${read.pattern || 'all events'}`;
        case 'deaf':
            return `${who} learns that ${read.listener} no longer listens for ${read.pattern || 'all events'}`;
        case 'say':
            return `${who} speaks of ${other}: ${read.text}`;
        case 'show':
            return read.shown ? `${who} shows ${read.shown.length} rows of ${other}`
                              : `${who} shows that it holds nothing of ${other}`;
        case 'exit':
            return `${who} stops`;
        case 'gone':
            return `${who} learns that ${other} is gone`;
        case 'dropped':
            return `${who} is dropped: ${read.queued} bytes waited for it, and ${read.length} more were to`;
        case 'busy':
            return `${read.turns} turns were made, and something waits`;
        default:
            return 'nothing waits any more';
    }
}
