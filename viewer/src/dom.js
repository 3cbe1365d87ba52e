// Elements of the page. Text goes in as text alone, so nothing of a trace is ever read as markup.

function make(tag, attributes = {}, ...children) {
    const element = document.createElement(tag);
    for (const [name, value] of Object.entries(attributes)) {
        if (value === null || value === undefined || value === false) continue;
        if (name.startsWith('on'))
            element.addEventListener(name.slice(2), value);
        else
            element.setAttribute(name, value === true ? '' : value);
    }
    element.append(...children.flat().filter(child => child !== null && child !== undefined));
    return element;
}

const byId = id => document.getElementById(id);
const grouped = new Intl.NumberFormat('en');
const counted = count => grouped.format(count);
const plural = (count, word) => `${counted(count)} ${word}${count === 1 ? '' : 's'}`;

// one call a frame, however often it is asked for
function oncePerFrame(work) {
    let asked = false;
    return () => {
        if (asked) return;
        asked = true;
        requestAnimationFrame(() => {
            asked = false;
            work();
        });
    };
}

// Puts rows into an element, each { key, sign, make }: one that is there already with this key and sign stays as it
// is.
function putRows(parent, rows) {
    const before = parent.rows ?? new Map(), after = new Map();
    let at = parent.firstChild;
    for (const row of rows) {
        const old = before.get(row.key);
        let element = old?.sign === row.sign ? old.element : null;
        if (element)
            before.delete(row.key);
        else
            element = row.make();
        after.set(row.key, {sign: row.sign, element});
        if (element === at)
            at = at.nextSibling;
        else
            parent.insertBefore(element, at);
    }
    for (const {element} of before.values()) element.remove();
    parent.rows = after;
}

// a link to an event of this trace
const eventLink = (event, text, attributes = {}) =>
    make('a', {href: `#event=${event}`, class: 'event-link', ...attributes}, text ?? String(event));
