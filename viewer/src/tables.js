// Roles, states, relations and interfaces by their numbers (docs/PROFILE.md and the AT-SPI2 interface files).

const ROLE_NAMES = `
    invalid, accelerator label, alert, animation, arrow, calendar, canvas, check box, check menu item,
    color chooser, column header, combo box, date editor, desktop icon, desktop frame, dial, dialog,
    directory pane, drawing area, file chooser, filler, focus traversable, font chooser, frame, glass pane,
    html container, icon, image, internal frame, label, layered pane, list, list item, menu, menu bar,
    menu item, option pane, page tab, page tab list, panel, password text, popup menu, progress bar,
    push button, radio button, radio menu item, root pane, row header, scroll bar, scroll pane, separator,
    slider, spin button, split pane, status bar, table, table cell, table column header, table row header,
    tearoff menu item, terminal, text, toggle button, tool bar, tool tip, tree, tree table, unknown, viewport,
    window, extended, header, footer, paragraph, ruler, application, autocomplete, editbar, embedded, entry,
    chart, caption, document frame, heading, page, section, redundant object, form, link, input method window,
    table row, tree item, document spreadsheet, document presentation, document text, document web,
    document email, comment, list box, grouping, image map, notification, info bar, level bar, title bar,
    block quote, audio, video, definition, article, landmark, log, marquee, math, rating, timer, static
`.trim().split(/,\s+/);

const STATE_NAMES = `
    invalid, active, armed, busy, checked, collapsed, defunct, editable, enabled, expandable, expanded,
    focusable, focused, has-tooltip, horizontal, iconified, modal, multi-line, multiselectable, opaque,
    pressed, resizable, selectable, selected, sensitive, showing, single-line, stale, transient, vertical,
    visible, manages-descendants, indeterminate, required, truncated, animated, invalid-entry,
    supports-autocompletion, selectable-text, is-default, visited, checkable, has-popup, read-only
`.trim().split(/,\s+/);

// relations are numbered from 1
const RELATION_NAMES = `
    label for, labelled by, controller for, controlled by, member of, tooltip for, node child of,
    node parent of, extended, flows to, flows from, subwindow of, embeds, embedded by, popup for,
    parent window of, description for, described by
`.trim().split(/,\s+/);

const ROLE_NUMBERS = new Map(ROLE_NAMES.map((name, number) => [name.replaceAll(' ', '-'), number]));
const STATE_BITS = new Map(STATE_NAMES.map((name, bit) => [name, bit]));

// the kinds of a node, each by its bit and its letter in shown rows
const TEXT = 1, EDITABLE = 2, SELECTION = 4, TABLE = 8, ACTION = 16;
const KIND_LETTERS = [[TEXT, 'T'], [EDITABLE, 'E'], [SELECTION, 'L'], [TABLE, 'B'], [ACTION, 'A']];
const KIND_NAMES =
    [[TEXT, 'Text'], [EDITABLE, 'EditableText'], [SELECTION, 'Selection'], [TABLE, 'Table'], [ACTION, 'Action']];

const roleName = role => ROLE_NAMES[role] ?? String(role);
const roleWord = role => role < ROLE_NAMES.length ? ROLE_NAMES[role].replaceAll(' ', '-') : String(role);
const roleOf = word => ROLE_NUMBERS.get(word) ?? Number(word);

const kindLetters = kinds => KIND_LETTERS.filter(([bit]) => kinds & bit).map(([, letter]) => letter).join('') || '-';
const kindNames = kinds => KIND_NAMES.filter(([bit]) => kinds & bit).map(([, name]) => name).join(', ') || 'none';

// States are two words of 32 bits, the low one first.
const hex8 = word => (word >>> 0).toString(16).padStart(8, '0');
const statesText = node => hex8(node.high) + hex8(node.low);
const hasState = (node, bit) => bit < 32 ? (node.low >>> bit & 1) === 1 : (node.high >>> (bit - 32) & 1) === 1;

function setState(node, bit, on) {
    if (bit < 32)
        node.low = (on ? node.low | 1 << bit : node.low & ~(1 << bit)) >>> 0;
    else
        node.high = (on ? node.high | 1 << (bit - 32) : node.high & ~(1 << (bit - 32))) >>> 0;
}

const stateNames = node => STATE_NAMES.filter((name, bit) => hasState(node, bit));

// enabled, sensitive, showing and visible: the states of a new node
const FIRST_STATES = 0x43000100;

const BASE_PATH = '/org/a11y/atspi/accessible/';
const ROOT_PATH = BASE_PATH + 'root';
const pathOf = number => number === 0 ? ROOT_PATH : BASE_PATH + number;
const numberOf = path => path === ROOT_PATH              ? 0
    : /^[1-9][0-9]*$/.test(path.slice(BASE_PATH.length)) ? Number(path.slice(BASE_PATH.length))
                                                         : -1;

// a path as rows show it: `root`, the number of an own path, else the whole path
function shownPath(path) {
    if (path === ROOT_PATH) return 'root';
    if (path.startsWith(BASE_PATH) && /^[1-9][0-9]{0,9}$/.test(path.slice(BASE_PATH.length)) &&
        Number(path.slice(BASE_PATH.length)) < 2 ** 32)
        return path.slice(BASE_PATH.length);
    return path;
}
