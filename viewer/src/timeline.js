// The time line: a list of events under the lines of the script that they belong to, with a lane for each party and
// an arrow for each way of a message. Only what is in sight is drawn, however long the trace is.

const ROW_HEIGHT = 24, BLOCK = 256, MOST_ARROWS = 500, SPARE_ROWS = 6;

// The ways of messages, found by the events between which they are in sight.
class Ways {
    constructor(trace) {
        this.hops = trace.hops;
        this.last = trace.count;
        this.openAt = Array.from({length: Math.floor(trace.count / BLOCK) + 2}, () => []);
        for (let hop = 0; hop < this.hops.to.length; hop++) {
            const end = Math.floor(this.hops.to[hop] / BLOCK);
            for (let block = Math.floor(this.hops.from[hop] / BLOCK) + 1; block <= end; block++) {
                if (this.openAt[block].length < MOST_ARROWS) this.openAt[block].push(hop);
            }
        }
    }

    // the first hop that ends at this event or behind it
    endingFrom(event) {
        let low = 0, high = this.hops.to.length;
        while (low < high) {
            const middle = (low + high) >> 1;
            if (this.hops.to[middle] < event)
                low = middle + 1;
            else
                high = middle;
        }
        return low;
    }

    between(first, last) {
        const block = Math.floor(last / BLOCK);
        const found = [];
        const {from, to} = this.hops;
        for (let hop = this.endingFrom(first);
             hop < to.length && to[hop] < (block + 1) * BLOCK && found.length < MOST_ARROWS; hop++) {
            if (from[hop] <= last) found.push(hop);
        }
        for (const hop of this.openAt[block + 1] ?? [])
            if (from[hop] <= last && found.length < MOST_ARROWS) found.push(hop);
        return found;
    }
}

class TimeLine {
    constructor(page) {
        this.page = page;
        this.scroller = byId('events');
        this.sheet = byId('events-sheet');
        this.head = byId('lane-names');
        this.picture = byId('lanes');
        this.draw = oncePerFrame(() => this.drawNow());
        this.scroller.addEventListener('scroll', this.draw);
        this.scroller.addEventListener('click', happening => {
            const row = happening.target.closest('[data-event]');
            if (row) page.goTo(Number(row.dataset.event));
        });
        new ResizeObserver(() => this.measure()).observe(this.scroller);
    }

    // a trace with its segments is drawn from here on
    open(trace, segments) {
        Object.assign(this, {trace, segments, ways: new Ways(trace), matches: new Set()});
        const order = party => party === 'bus' ? 16
            : party === 'reg'                  ? 17
            : isApp(party)                     ? Number(party.slice(1))
                                               : 18 + Number(party.slice(1));
        const withBus = trace.hops.to.length ? [...trace.parties, 'bus', 'reg'] : [...trace.parties];
        this.lanes = [...new Set(withBus)].sort((a, b) => order(a) - order(b));
        byId('panes').classList.toggle('wide', this.lanes.length > 9);
        this.began = new Map([['bus', 0], ['reg', 0]]);
        this.ended = new Map();
        this.sheet.rows = undefined;
        this.sheet.replaceChildren();
        for (let event = 1; event <= trace.count; event++) {
            const kind = KINDS[trace.kind[event]], who = PARTIES[trace.who[event] - 1];
            if (kind === 'start') this.began.set(who, event);
            if (kind === 'exit' || kind === 'dropped') this.ended.set(who, event);
        }
        this.show(null);
    }

    // the items of the list: an event, or a segment's head (below 0); with a filter only the events that pass it
    show(passes) {
        const {trace, segments} = this;
        const items = [];
        this.place = new Int32Array(trace.count + 2);
        for (const [k, segment] of segments.entries()) {
            const events = [];
            for (let event = segment.from; event < segment.to; event++)
                if (!passes || passes(event)) events.push(event);
            if (!events.length && (passes || segment.line === 0)) {
                for (let event = segment.from; event < segment.to; event++) this.place[event] = items.length;
                continue;
            }
            items.push(-k - 1);
            let next = 0;
            for (let event = segment.from; event < segment.to; event++) {
                this.place[event] = items.length;
                if (events[next] !== event) continue;
                items.push(event);
                next += 1;
            }
        }
        this.place[trace.count + 1] = items.length;
        this.items = Int32Array.from(items);
        this.filtered = passes !== null;
        this.shown = items.reduce((count, item) => count + (item > 0 ? 1 : 0), 0);
        this.sheet.style.height = `${this.items.length * ROW_HEIGHT}px`;
        this.measure();
    }

    isShown(event) { return this.items[this.place[event]] === event; }

    // the next event in sight of the list in this direction, or the same where there is none
    nextShown(event, direction) {
        for (let k = this.place[event] + (direction > 0 && !this.isShown(event) ? 0 : direction);
             k >= 0 && k < this.items.length; k += direction) {
            if (this.items[k] > 0) return this.items[k];
        }
        return event;
    }

    measure() {
        if (!this.lanes) return;
        const width = this.scroller.clientWidth;
        this.height = this.scroller.clientHeight;
        this.laneWidth = Math.max(20, Math.min(56, Math.floor(width * 0.45 / this.lanes.length)));
        this.lanesWidth = this.laneWidth * this.lanes.length + 8;
        this.scroller.style.setProperty('--lanes', `${this.lanesWidth}px`);
        this.head.replaceChildren(...this.lanes.map((party, k) => {
            const name = this.page.nameOf(party);
            return make('span', {
                class: this.laneWidth < 28 ? 'lane-name narrow' : 'lane-name',
                style: `left:${this.laneX(k) - this.laneWidth / 2}px;width:${this.laneWidth}px`,
                title: name ? `${party}: ${name}` : partyWords(party)
            },
                party);
        }));
        this.drawNow();
    }

    laneX(lane) { return 4 + this.laneWidth * (lane + 0.5); }

    // brings an event into sight
    reveal(event) {
        const top = this.place[event] * ROW_HEIGHT, {scrollTop} = this.scroller, clientHeight = this.height;
        if (top < scrollTop + 2 * ROW_HEIGHT)
            this.scroller.scrollTop = Math.max(0, top - clientHeight / 3);
        else if (top > scrollTop + clientHeight - 3 * ROW_HEIGHT)
            this.scroller.scrollTop = top - clientHeight * 2 / 3;
        this.drawNow();
    }

    drawNow() {
        if (!this.items || !this.laneWidth) return;
        const {scrollTop} = this.scroller, clientHeight = this.height;
        const first = Math.max(0, Math.floor(scrollTop / ROW_HEIGHT) - SPARE_ROWS);
        const last = Math.min(this.items.length - 1, Math.ceil((scrollTop + clientHeight) / ROW_HEIGHT) + SPARE_ROWS);
        const current = this.page.event, there = current && this.isShown(current) ? this.place[current] : -1;
        const rows = [];
        for (let k = first; k <= last; k++) rows.push(this.rowAt(k));
        if (there >= 0 && (there < first || there > last)) rows.push(this.rowAt(there));
        putRows(this.sheet, rows);
        this.svg(first, last);
        if (current && this.isShown(current))
            this.scroller.setAttribute('aria-activedescendant', `event-${current}`);
        else
            this.scroller.removeAttribute('aria-activedescendant');
    }

    rowAt(k) {
        const event = this.items[k];
        if (event < 0) return {key: `head ${k}`, sign: `${event} ${this.shown}`, make: () => this.headRow(k)};
        const {page} = this;
        const sign = `${event === page.event} ${event > page.event} ${this.matches.has(event)} ${this.shown} ${
            this.items[k - 1] < 0}`;
        return {key: `${k} ${event}`, sign, make: () => this.eventRow(k)};
    }

    headRow(k) {
        const segment = this.segments[-this.items[k] - 1];
        const count = segment.to - segment.from;
        const said = segment.refused ? `refused: ${segment.refused}`
            : count                    ? plural(count, 'event')
            : segment.label[0] === '#' ? ''
                                       : 'no event';
        return make('div', {
            class: `segment${segment.label[0] === '#' ? ' comment' : ''}`,
            style: `top:${k * ROW_HEIGHT}px`,
            'aria-hidden': 'true'
        },
            make('span', {class: 'segment-line'}, segment.line ? String(segment.line) : ''),
            make('span', {class: 'segment-text'}, segment.label), make('span', {class: 'segment-count'}, said));
    }

    eventRow(k) {
        const {trace, page} = this;
        const event = this.items[k], kind = KINDS[trace.kind[event]];
        const segment = this.items[k - 1] < 0 ? this.segments[-this.items[k - 1] - 1] : null;
        const marks =
            [this.matches.has(event) ? 'found' : '', event > page.event ? 'later' : ''].filter(Boolean).join(' ');
        const words = `${segment ? `${segment.line ? `Line ${segment.line}: ` : ''}${segment.label}. ` : ''}Event ${
            event}: ${eventWords(trace, page.names, event)}`;
        return make('div', {
            class: `event ${marks}`,
            style: `top:${k * ROW_HEIGHT}px`,
            role: 'option',
            id: `event-${event}`,
            'data-event': event,
            'aria-selected': event === page.event ? 'true' : 'false',
            'aria-setsize': this.shown,
            'aria-posinset': this.filtered ? null : event,
            'aria-label': words,
            title: trace.eventText(event).slice(0, 300),
        },
            make('span', {class: 'event-number'}, String(event)),
            make('span', {class: `event-kind kind-${kind}`}, kind),
            make('span', {class: 'event-text'}, eventSummary(trace, page.names, event)));
    }

    // the lanes, the arrows and the signs of the rows in sight
    svg(first, last) {
        const top = first * ROW_HEIGHT, height = (last - first + 1) * ROW_HEIGHT;
        const {picture} = this;
        picture.setAttribute('width', this.lanesWidth);
        picture.setAttribute('height', height);
        picture.style.top = `${top}px`;
        const y = event => (this.place[event] + (this.isShown(event) ? 0.5 : 0)) * ROW_HEIGHT - top;
        const drawn = [HEADS];
        this.lanes.forEach((party, lane) => drawn.push(this.laneLine(party, lane, y, height)));
        const events = [];
        for (let k = first; k <= last; k++)
            if (this.items[k] > 0) events.push(this.items[k]);
        if (events.length) drawn.push(...this.arrows(events[0], events[events.length - 1], y));
        for (const event of events) drawn.push(this.sign(event, y(event)));
        picture.innerHTML = drawn.join('');
    }

    laneLine(party, lane, y, height) {
        const began = this.began.get(party) ?? 0, ended = this.ended.get(party);
        const from = began ? Math.max(y(began), 0) : 0, to = ended ? Math.min(y(ended), height) : height;
        const x = this.laneX(lane);
        return to > from ? `<line class="lane lane-${party[0]}" x1="${x}" x2="${x}" y1="${from}" y2="${to}"/>` : '';
    }

    arrows(first, last, y) {
        const {trace, ways} = this,
                      lanes = new Map(this.lanes.map((party, k) => [PARTY_CODES.get(party) + 1, this.laneX(k)]));
        const chosen = this.page.message;
        const drawn = [];
        for (const hop of ways.between(first, last)) {
            const {from, to, sender, origin} = ways.hops;
            const x1 = lanes.get(sender[hop]), x2 = lanes.get(trace.who[to[hop]]), y1 = y(from[hop]), y2 = y(to[hop]);
            if (x1 === undefined || x2 === undefined ||
                this.filtered && !this.isShown(from[hop]) && !this.isShown(to[hop]))
                continue;
            const length = Math.hypot(x2 - x1, y2 - y1) || 1, cut = 6 / length;
            const type = TYPE_WORDS[trace.type[origin[hop]]] || 'call';
            const isChosen = origin[hop] === chosen;
            const line = `<line class="arrow ${type}${isChosen ? ' chosen' : ''}" x1="${
                             (x1 + (x2 - x1) * cut).toFixed(1)}" y1="${(y1 + (y2 - y1) * cut).toFixed(1)}"` +
                ` x2="${(x2 - (x2 - x1) * cut).toFixed(1)}" y2="${
                    (y2 - (y2 - y1) * cut).toFixed(1)}" marker-end="url(#head${isChosen ? '-chosen' : ''})"/>`;
            if (isChosen)
                drawn.push(line);
            else
                drawn.unshift(line);
        }
        return drawn;
    }

    sign(event, y) {
        const {trace} = this;
        const kind = KINDS[trace.kind[event]];
        const lane = trace.who[event] ? this.lanes.indexOf(PARTIES[trace.who[event] - 1]) : -1;
        const chosen = event === this.page.event ? ' chosen' : '';
        if (lane < 0) return `<line class="sign-rest" x1="4" x2="${this.lanesWidth - 4}" y1="${y}" y2="${y}"/>`;
        const x = this.laneX(lane);
        switch (kind) {
            case 'start':
                return `<path class="sign begin${chosen}" d="M${x - 7} ${y - 5}h14"/><circle class="sign got${
                    chosen}" cx="${x}" cy="${y}" r="3"/>`;
            case 'sent':
                return `<circle class="sign sent${chosen}" cx="${x}" cy="${y}" r="4"/>`;
            case 'got':
                return `<circle class="sign got${chosen}" cx="${x}" cy="${y}" r="4"/>`;
            case 'step':
                return `<rect class="sign step${chosen}" x="${x - 5}" y="${y - 5}" width="10" height="10"/>`;
            case 'say':
                return `<path class="sign say${chosen}" d="M${x - 6} ${y - 6}h12v8h-7l-4 4v-4h-1z"/>`;
            case 'show':
                return `<path class="sign show${chosen}" d="M${x - 6} ${y - 4}h12M${x - 6} ${y}h12M${x - 6} ${
                    y + 4}h12"/>`;
            case 'exit':
                return `<path class="sign end${chosen}" d="M${x - 8} ${y}h16"/>`;
            case 'dropped':
                return `<path class="sign end${chosen}" d="M${x - 6} ${y - 6}l12 12M${x + 6} ${y - 6}l-12 12"/>`;
            case 'gone':
                return `<path class="sign gone${chosen}" d="M${x - 5} ${y + 5}l10 -10"/><circle class="sign gone${
                    chosen}" cx="${x}" cy="${y}" r="5"/>`;
            case 'hears':
                return `<path class="sign hears${chosen}" d="M${x - 5} ${y}h10M${x} ${y - 5}v10"/>`;
            case 'deaf':
                return `<path class="sign hears${chosen}" d="M${x - 5} ${y}h10"/>`;
            default:
                return '';
        }
    }
}

const HEADS =
    '<defs><marker id="head" class="head" viewBox="0 0 8 8" refX="7" refY="4" ' +
    'markerWidth="7" markerHeight="7" orient="auto">' +
    '<path d="M0 0L8 4L0 8z"/></marker>' +
    '<marker id="head-chosen" class="head-chosen" viewBox="0 0 8 8" refX="7" refY="4" ' +
    'markerWidth="6" markerHeight="6" orient="auto">' +
    '<path d="M0 0L8 4L0 8z"/></marker></defs>';
