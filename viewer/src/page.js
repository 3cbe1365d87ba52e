// The page: it opens a text, keeps the event that is looked at, and moves by keys, buttons and links.

class Page {
    constructor() {
        this.event = 0;
        this.message = 0;
        this.names = new Map();
        this.forests = new Map();
        this.found = [];
        this.scriptText = null;
        this.timeLine = new TimeLine(this);
        this.draw = oncePerFrame(() => this.drawNow());
        this.listen();
    }

    // the name with which an application started
    nameOf(party) { return this.appNames?.get(party) ?? ''; }

    // A trace is opened; one that is not understood is refused at its line, and nothing of it is shown.
    open(text, script, file) {
        byId('welcome').hidden = true;
        try {
            if (/^--$/m.test(text)) {
                const at = /^--$/m.exec(text).index;
                [script, text] = [text.slice(0, at), text.slice(at + 3)];
            }
            const trace = readTrace(text);
            if (!trace.count) throw new Refusal(1, 'no event stands here');
            this.begin(trace, script, file);
        } catch (fault) {
            if (!(fault instanceof Refusal)) throw fault;
            this.refuse(fault, text, file);
        }
    }

    refuse(fault, text, file) {
        const line = text.split('\n', fault.line)[fault.line - 1] ?? '';
        byId('viewer').hidden = true;
        byId('refusal').hidden = false;
        byId('refusal-words').textContent = `${file ? `${file}, ` : ''}${fault.message}`;
        byId('refusal-line').textContent = line.length > 600 ? line.slice(0, 600) + ' …' : line;
        document.title = 'Not understood – trace';
    }

    begin(trace, script, file) {
        byId('refusal').hidden = true;
        byId('viewer').hidden = false;
        Object.assign(this, {
            trace,
            file,
            event: 0,
            message: 0,
            history: new History(trace),
            verdict: null,
            found: [],
            chosen: null,
            spoken: -1
        });
        this.names = namesOf(trace, this.history);
        this.appNames = new Map();
        for (let event = 1; event <= trace.count; event++) {
            if (KINDS[trace.kind[event]] === 'start' && isApp(PARTIES[trace.who[event] - 1])) {
                const read = readEvent(trace, event);
                this.appNames.set(read.who, read.name);
            }
        }
        this.forests.clear();
        byId('forests').replaceChildren();
        this.setScript(script);
        byId('file').textContent = file ?? 'in this page';
        document.title = `${file ?? 'Trace'} – trace`;
        byId('of').textContent = `of ${counted(trace.count)}`;
        for (const name of ['slider', 'number']) byId(name).max = trace.count;
        this.fillFilters();
        this.readLink();
        if (!this.event) this.goTo(1);
        this.drawNow();
    }

    setScript(script) {
        this.scriptText = script;
        const byScript = script ? segmentsByScript(this.trace, script) : null;
        this.segments = byScript ? byScript.segments : segmentsByTrace(this.trace);
        this.withEvents = this.segments.filter(segment => segment.to > segment.from);
        this.timeLine.open(this.trace, this.segments);
        const facts = [plural(this.trace.count, 'event')];
        if (!this.trace.wire)
            facts.push('no bytes: what readers hold needs --wire, so it stands where it is shown alone');
        if (byScript?.misfit)
            facts.push(`the script does not fit from event ${byScript.misfit.event} on (its line ${
                byScript.misfit.line}: ${byScript.misfit.why})`);
        if (!byScript) facts.push('no script: segments are what the trace tells, and an edit may be several lines');
        if (this.trace.refused)
            facts.push(`the run ended: line ${this.trace.refused.line} refused, ${this.trace.refused.name}`);
        byId('facts').textContent = facts.join('; ');
    }

    // looks at an event
    goTo(event, announce = true) {
        event = Math.max(1, Math.min(this.trace.count, event));
        if (event === this.event) return;
        this.event = event;
        this.message = originOf(this.trace, event);
        this.announces = announce;
        this.draw();
    }

    // all that stands at the event, once a frame however many steps were made
    drawNow() {
        const {event} = this;
        const state = this.history.at(event);
        this.timeLine.reveal(event);
        this.drawSteps(this.announces);
        this.drawForests(state);
        byId('message-body').replaceChildren(...messagePanel(this, event).filter(Boolean));
        byId('message').scrollTop = 0;
        this.drawSpoken(event);
        this.keepLink();
    }

    drawSpoken(event) {
        const count = spokenUntil(this.trace, event);
        if (this.spoken === count) return;
        this.spoken = count;
        byId('spoken-body').replaceChildren(...spokenPanel(this, count).filter(Boolean));
        byId('spoken').scrollTop = 1e9;
    }

    segmentAt(event) {
        let low = 0, high = this.withEvents.length - 1;
        while (low < high) {
            const middle = (low + high + 1) >> 1;
            if (this.withEvents[middle].from <= event)
                low = middle;
            else
                high = middle - 1;
        }
        return low;
    }

    drawSteps(announce) {
        const {event, trace} = this, segment = this.withEvents[this.segmentAt(event)];
        byId('slider').value = event;
        byId('slider').setAttribute('aria-valuetext', `event ${event} of ${trace.count}`);
        if (document.activeElement !== byId('number')) byId('number').value = event;
        byId('line').replaceChildren(segment.line ? make('span', {class: 'line-number'}, `line ${segment.line}`) : '',
            make('code', {}, segment.label));
        const words = `Event ${event}: ${eventWords(trace, this.names, event)}`;
        if (announce && document.activeElement !== byId('events')) byId('live').textContent = words;
        for (const [name, isAt] of [['first', event === 1], ['back', event === 1], ['on', event === trace.count],
                 ['last', event === trace.count], ['segment-back', event === 1], ['segment-on', event === trace.count]])
            byId(name).setAttribute('aria-disabled', String(isAt));
    }

    // the last `show` of a reader up to here, as rows; what is held at other events is known from bytes alone
    lastShown(reader, app, event) {
        for (let k = event; k > 0; k--) {
            if (KINDS[this.trace.kind[k]] !== 'show') continue;
            const read = readEvent(this.trace, k);
            if (read.who === reader && read.other === app) return {event: k, rows: read.shown && shownRows(read.shown)};
        }
        return null;
    }

    columnsOf(state, app) {
        const columns = [];
        for (const party of [...this.trace.parties].filter(isReader).sort()) {
            const reader = state.readers.get(party);
            if (!this.trace.wire) {
                const shown = this.lastShown(party, app, this.event);
                if (shown)
                    columns.push({
                        reader: party,
                        title: `${party} as shown at ${shown.event}`,
                        rows: shown.rows,
                        empty: 'It held nothing.'
                    });
                continue;
            }
            if (!reader) continue;
            const ended = state.ended.has(party) ? `, as it ended at ${state.ended.get(party)}` : '';
            const known = reader.named(this.names.get(app));
            const rows = known?.view ? known.view.walk(known.root) : null;
            const waits = [...reader.waiting.values()].some(
                question => question.asks === 'items' && question.name === known?.name);
            const empty = known
                ? `Holds nothing: ${waits ? 'the items are asked for' : 'the items are not asked for yet'}.`
                : `Holds nothing: ${app} is not known to it.`;
            columns.push({
                reader: party,
                title: `${party} holds${ended}${known?.reload ? ', to be loaded again' : ''}`,
                rows,
                empty
            });
        }
        return columns;
    }

    drawForests(state) {
        const apps = [...new Set([...this.trace.parties].filter(isApp))].sort((a, b) => a.slice(1) - b.slice(1));
        byId('forests').className = apps.length > 1 ? 'many' : 'single';
        let differing = 0;
        for (const app of apps) {
            const tree = state.trees.get(app);
            const columns = this.columnsOf(state, app);
            if (!tree && !columns.length) {
                if (this.forests.has(app)) this.forests.get(app).element.hidden = true;
                continue;
            }
            if (!this.forests.has(app)) {
                this.forests.set(app, new Forest(this, app));
                byId('forests').append(...[...this.forests].sort((a, b) => a[0].slice(1) - b[0].slice(1)).map(([,
                    forest]) => forest.element));
            }
            const forest = this.forests.get(app);
            forest.element.hidden = false;
            const name = this.appNames.get(app), ended = state.ended.get(app);
            const title = [
                make('span', {class: 'party'}, app), name === undefined ? '' : ` “${name}”`,
                make('span', {class: 'bus-name'}, this.names.get(app) ?? '')
            ];
            forest.show(title, ended ? `It ended at event ${ended}; this is its last tree.` : '',
                tree ? tree.walk(ROOT_PATH) : null, columns);
            differing += forest.lines.reduce(
                (count, line) => count + line.cells.filter(made => made && markWords(made).length).length, 0);
        }
        byId('forests-empty').hidden =
            this.forests.size > 0 && [...this.forests.values()].some(forest => !forest.element.hidden);
        byId('differing').textContent = differing ? `${counted(differing)} marked` : 'nothing differs';
        this.drawNode();
    }

    // a node is chosen in a tree
    choose(app, path) {
        this.chosen = {app, path};
        for (const [name, forest] of this.forests) {
            if (name === app || forest.path === null) continue;
            forest.path = null;
            forest.drawNow();
        }
        this.drawNode();
    }

    drawNode() {
        const forest = this.chosen && this.forests.get(this.chosen.app);
        const isThere = forest && forest.path !== null && !forest.element.hidden;
        byId('node-title').textContent = isThere ? `Node ${shownPath(forest.path)} of ${this.chosen.app}` : 'Node';
        byId('node-body')
            .replaceChildren(isThere
                    ? nodeTable(forest)
                    : make('p', {class: 'faint'}, 'Choose a node in a tree to compare it field by field.'));
    }

    // one event on or back, of those that the filter lets through; a whole segment likewise
    step(direction) { this.goTo(this.timeLine.nextShown(this.event, direction)); }

    stepSegment(direction) {
        const at = this.segmentAt(this.event);
        if (direction > 0)
            return this.goTo(at + 1 < this.withEvents.length ? this.withEvents[at + 1].from : this.trace.count);
        const {from} = this.withEvents[at];
        this.goTo(this.event > from || at === 0 ? from : this.withEvents[at - 1].from);
    }

    fillFilters() {
        byId('party').replaceChildren(make('option', {value: ''}, 'all'),
            ...this.timeLine.lanes.map(party => make('option', {value: party}, party)));
        byId('members').replaceChildren(
            ...[...this.trace.members].sort().map(member => make('option', {value: member})));
        for (const name of ['party', 'path', 'member', 'search']) byId(name).value = '';
        byId('passing').textContent = '';
        byId('matches').textContent = '';
    }

    clearFilters() {
        this.fillFilters();
        this.found = [];
        this.timeLine.matches.clear();
        this.filter();
    }

    filter() {
        const passes = filterOf(
            this, {party: byId('party').value, path: byId('path').value.trim(), member: byId('member').value.trim()});
        this.timeLine.show(passes);
        byId('passing').textContent =
            passes ? `${counted(this.timeLine.shown)} of ${plural(this.trace.count, 'event')}` : '';
        this.timeLine.reveal(this.event);
    }

    search() {
        this.found = eventsWith(this.trace, byId('search').value);
        this.timeLine.matches = new Set(this.found);
        this.tellFound();
        this.timeLine.draw();
    }

    tellFound() {
        const at = this.found.indexOf(this.event);
        byId('matches').textContent = byId('search').value
            ? `${at >= 0 ? `${at + 1} of ` : ''}${plural(this.found.length, 'match').replace('matchs', 'matches')}`
            : '';
    }

    nextFound(direction) {
        if (!this.found.length) return;
        const next = direction > 0 ? this.found.find(event => event > this.event)
                                   : this.found.filter(event => event < this.event).pop();
        this.goTo(next ?? this.found[direction > 0 ? 0 : this.found.length - 1]);
        this.tellFound();
    }

    // the verdict of an audit is shown, and the event that it names
    judge(text) {
        const verdict = verdictOf(text);
        const fault = byId('verdict-fault');
        fault.hidden = verdict !== null || text.trim() === '';
        this.verdict = verdict && text.trim();
        byId('verdict').hidden = verdict === null;
        if (!verdict) return this.keepLink();
        byId('verdict').replaceChildren(...verdictParts(this.trace, verdict));
        if (verdict.event) this.goTo(verdict.event);
        this.keepLink();
    }

    // the link is written where nothing moves for a moment
    keepLink() {
        clearTimeout(this.linkTimer);
        this.linkTimer = setTimeout(() => this.writeLink(), 250);
    }

    // The link to what is looked at stands behind # in the address: the event, and the verdict if there is one.
    writeLink() {
        const words = new URLSearchParams({event: this.event});
        if (this.verdict) words.set('verdict', this.verdict);
        this.link = `#${words}`;
        if (location.hash === this.link) return;
        try {
            history.replaceState(null, '', this.link);
        } catch {
            // an address that cannot be written is no reason to stop
        }
    }

    readLink() {
        const words = new URLSearchParams(location.hash.slice(1));
        const event = Number(words.get('event') ?? 0);
        if (words.has('verdict')) {
            byId('verdict-text').value = words.get('verdict');
            this.judge(words.get('verdict'));
        }
        if (event) this.goTo(event);
    }

    // files that are chosen or dropped: a trace, and beside it its script
    async openFiles(files) {
        const texts =
            await Promise.all([...files].map(async file => ({name: file.name, bytes: await file.arrayBuffer()})));
        for (const each of texts) {
            try {
                each.text = utf8.decode(each.bytes);
            } catch {
                return this.refuse(new Refusal(lineNotUtf8(new Uint8Array(each.bytes)), 'not UTF-8'), '', each.name);
            }
        }
        const isScript = each => /\.(script|in)$/.test(each.name);
        const trace = texts.find(each => !isScript(each)), script = texts.find(isScript);
        if (trace)
            this.open(trace.text, script?.text ?? null, trace.name);
        else if (script && this.trace) {
            this.setScript(script.text);
            const {event} = this;
            this.event = 0;
            this.goTo(event);
        }
    }

    listen() {
        const on = (id, kind, work) => byId(id).addEventListener(kind, work);
        const buttons = {
            'first': () => this.goTo(1),
            'segment-back': () => this.stepSegment(-1),
            'back': () => this.step(-1),
            'on': () => this.step(1),
            'segment-on': () => this.stepSegment(1),
            'last': () => this.goTo(this.trace.count),
            'found-back': () => this.nextFound(-1),
            'found-on': () => this.nextFound(1),
            'clear': () => this.clearFilters(),
            'verdict-open': () => this.judge(byId('verdict-text').value),
            'help': () => byId('help-text').showModal(),
            'help-close': () => byId('help-text').close(),
            'copy': () => this.copyLink(),
        };
        for (const [id, work] of Object.entries(buttons)) on(id, 'click', work);
        on('slider', 'input', () => this.goTo(Number(byId('slider').value), false));
        on('number', 'change', () => this.goTo(Number(byId('number').value) || 1));
        for (const id of ['party', 'path', 'member']) on(id, 'input', () => this.filter());
        on('search', 'input', () => this.search());
        on('search', 'keydown', happening => {
            if (happening.key === 'Enter') this.nextFound(happening.shiftKey ? -1 : 1);
        });
        for (const id of ['files', 'files-again'])
            on(id, 'change', happening => this.openFiles(happening.target.files));
        on('events', 'keydown', happening => this.onListKey(happening));
        document.addEventListener('keydown', happening => this.onKey(happening));
        document.addEventListener('dragover', happening => happening.preventDefault());
        document.addEventListener('drop', happening => {
            happening.preventDefault();
            this.openFiles(happening.dataTransfer.files);
        });
        window.addEventListener('hashchange', () => {
            if (this.trace && location.hash !== this.link) this.readLink();
        });
    }

    copyLink() {
        this.writeLink();
        const address = location.href.split('#')[0] + this.link;
        navigator.clipboard?.writeText(address).then(() => {
            byId('live').textContent = 'The link is copied.';
        }, () => {});
    }

    onListKey(happening) {
        if (happening.altKey || happening.metaKey || !this.trace) return;
        const many = direction => {
            for (let k = 0; k < 20; k++) this.event = this.timeLine.nextShown(this.event, direction);
        };
        const paged = direction => {
            const {event} = this;
            many(direction);
            const target = this.event;
            this.event = event;
            this.goTo(target);
        };
        switch (happening.key) {
            case 'ArrowDown':
                happening.ctrlKey ? this.stepSegment(1) : this.step(1);
                break;
            case 'ArrowUp':
                happening.ctrlKey ? this.stepSegment(-1) : this.step(-1);
                break;
            case 'PageDown':
                paged(1);
                break;
            case 'PageUp':
                paged(-1);
                break;
            case 'Home':
                this.goTo(1);
                break;
            case 'End':
                this.goTo(this.trace.count);
                break;
            default:
                return;
        }
        happening.preventDefault();
    }

    // single keys, which the help can switch off, and only where nothing is typed
    onKey(happening) {
        const {target} = happening;
        if (!this.trace || byId('viewer').hidden || happening.ctrlKey || happening.altKey || happening.metaKey) return;
        if (!byId('single-keys').checked || target.closest?.('input:not([type=range]), textarea, select, dialog'))
            return;
        const work = {
            j: () => this.step(1),
            k: () => this.step(-1),
            J: () => this.stepSegment(1),
            K: () => this.stepSegment(-1),
            n: () => this.nextFound(1),
            N: () => this.nextFound(-1),
            '/': () => byId('search').focus(),
            g: () => byId('number').select(),
            t: () => document.querySelector('.forest:not([hidden]) .tree[tabindex="0"]')?.focus(),
            e: () => byId('events').focus(),
            '?': () => byId('help-text').showModal(),
        }[happening.key];
        if (!work) return;
        happening.preventDefault();
        work();
    }
}

// the number of the first line that is not UTF-8
function lineNotUtf8(bytes) {
    for (let line = 1, from = 0; from < bytes.length; line++) {
        const end = bytes.indexOf(10, from) < 0 ? bytes.length : bytes.indexOf(10, from);
        try {
            utf8.decode(bytes.subarray(from, end));
        } catch {
            return line;
        }
        from = end + 1;
    }
    return 1;
}

// a text that the page carries: `&`, `<` and carriage returns are written otherwise there
function carried(id) {
    const element = byId(id);
    if (!element || element.dataset.there !== 'yes') return null;
    const text = element.textContent.replace(/^\n/, '');
    element.textContent = '';
    return text.includes('&') ? text.replace(/&(lt|amp|cr);/g, (all, name) => ({lt: '<', amp: '&', cr: '\r'})[name])
                              : text;
}

const page = new Page();
const carriedTrace = carried('trace-text');
if (carriedTrace !== null)
    page.open(carriedTrace, carried('script-text'), byId('trace-text').dataset.name);
else
    byId('welcome').hidden = false;
