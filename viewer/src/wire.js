// D-Bus messages in bytes (D-Bus Specification: marshalling and message format). `decodeMessage` reads one, and tells
// of each item where it lies where it is asked to. A value is { type, v }: its type's signature and what it holds.

const MESSAGE_TYPES = ['', 'call', 'return', 'error', 'signal'];
const FIELD_NAMES =
    ['', 'path', 'interface', 'member', 'error', 'reply', 'destination', 'sender', 'signature', 'unix_fds'];
const ALIGNMENTS = {
    y: 1,
    b: 4,
    n: 2,
    q: 2,
    i: 4,
    u: 4,
    x: 8,
    t: 8,
    d: 8,
    s: 4,
    o: 4,
    g: 1,
    a: 4,
    '(': 8,
    '{': 8,
    v: 1
};

const DIGITS = new Uint8Array(128);
for (let k = 0; k < 16; k++) DIGITS['0123456789abcdef'.charCodeAt(k)] = k;

function bytesOf(digits) {
    const bytes = new Uint8Array(digits.length >> 1);
    for (let k = 0; k < bytes.length; k++)
        bytes[k] = DIGITS[digits.charCodeAt(2 * k)] << 4 | DIGITS[digits.charCodeAt(2 * k + 1)];
    return bytes;
}

// the end of the single type that begins here
function endOfType(signature, at) {
    while (signature[at] === 'a') at += 1;
    const opener = signature[at];
    if (opener !== '(' && opener !== '{') {
        if (opener === undefined || !(opener in ALIGNMENTS)) throw new Error(`${opener ?? 'the end'} is no type`);
        return at + 1;
    }
    const closer = opener === '(' ? ')' : '}';
    at += 1;
    while (signature[at] !== closer) at = endOfType(signature, at);
    return at + 1;
}

const typeLists = new Map();

function typesIn(signature) {
    let types = typeLists.get(signature);
    if (types) return types;
    types = [];
    for (let at = 0; at < signature.length;) {
        const end = endOfType(signature, at);
        types.push(signature.slice(at, end));
        at = end;
    }
    typeLists.set(signature, types);
    return types;
}

// the types inside a struct or an entry
const partLists = new Map();

function partsOf(type) {
    let parts = partLists.get(type);
    if (!parts) partLists.set(type, parts = typesIn(type.slice(1, -1)));
    return parts;
}

// what items are called that others are made of
const LENGTH = what => `length of the ${what}`, SIGNATURE = what => `signature of the ${what}`;
const FIELD = (what, k) => `${what}.${k + 1}`, ENTRY = (what, k) => `${what}.${k ? 'value' : 'key'}`,
      ELEMENT = (what, k) => `${what}[${k}]`;

const utf8 = new TextDecoder('utf-8', {fatal: true});

class Decoder {
    constructor(bytes, note) {
        this.bytes = bytes;
        this.view = new DataView(bytes.buffer, bytes.byteOffset, bytes.length);
        this.little = bytes[0] === 0x6c;
        this.at = 0;
        this.note = note;
    }

    need(count) {
        if (this.at + count > this.bytes.length)
            throw new Error(`the bytes end at ${this.bytes.length}, inside an item`);
    }

    pad(alignment) {
        const from = this.at;
        const to = Math.ceil(from / alignment) * alignment;
        if (to === from) return;
        this.need(to - from);
        for (let k = from; k < to; k++)
            if (this.bytes[k]) throw new Error(`the padding byte at ${k} is not 0`);
        this.at = to;
        if (this.note) this.note(from, to, 'padding', '');
    }

    u32(what) {
        if (this.at & 3) this.pad(4);
        this.need(4);
        const value = this.view.getUint32(this.at, this.little);
        this.at += 4;
        if (this.note) this.note(this.at - 4, this.at, what, String(value));
        return value;
    }

    // what an item is called, where somebody asks
    named(name, ...what) { return this.note ? name(...what) : ''; }

    // a text with a length before it and a zero byte behind it
    text(length, what) {
        this.need(length + 1);
        const piece = this.bytes.subarray(this.at, this.at + length);
        if (this.bytes[this.at + length] !== 0) throw new Error(`the byte behind the text at ${this.at} is not 0`);
        let plain = length < 512;
        for (let k = 0; plain && k < length; k++) plain = piece[k] < 128;
        const value = plain ? String.fromCharCode.apply(null, piece) : utf8.decode(piece);
        this.at += length + 1;
        if (this.note) this.note(this.at - length - 1, this.at, what, quote(value));
        return value;
    }

    signature(what) {
        this.need(1);
        const length = this.bytes[this.at++];
        if (this.note) this.note(this.at - 1, this.at, LENGTH(what), String(length));
        return this.text(length, what);
    }

    value(type, what, depth) {
        if (depth > 64) throw new Error('the 65th container in one another');
        const code = type[0];
        if (code !== 'y' && code !== 'v' && code !== 'g') this.pad(ALIGNMENTS[code]);
        switch (code) {
            case 's':
            case 'o':
                return {type, v: this.text(this.u32(this.named(LENGTH, what)), what)};
            case 'g':
                return {type, v: this.signature(what)};
            case 'v': {
                const inner = this.signature(this.named(SIGNATURE, what));
                if (typesIn(inner).length !== 1) throw new Error(`the variant at ${this.at} is not of one type`);
                return {type, v: this.value(inner, what, depth + 1)};
            }
            case 'a':
                return this.array(type, what, depth);
            case '(':
                return {
                    type,
                    v: partsOf(type).map((part, k) => this.value(part, this.named(FIELD, what, k), depth + 1))
                };
            case '{':
                return {
                    type,
                    v: partsOf(type).map((part, k) => this.value(part, this.named(ENTRY, what, k), depth + 1))
                };
            default:
                return {type, v: this.number(code, what)};
        }
    }

    array(type, what, depth) {
        const length = this.u32(this.named(LENGTH, what));
        const element = type.slice(1);
        this.pad(ALIGNMENTS[element[0]]);
        const end = this.at + length;
        this.need(length);
        const values = [];
        while (this.at < end) values.push(this.value(element, this.named(ELEMENT, what, values.length), depth + 1));
        if (this.at !== end) throw new Error(`the array that ends at ${end} is passed`);
        return {type, v: values};
    }

    number(code, what) {
        const size = {y: 1, n: 2, q: 2, b: 4, i: 4, u: 4, x: 8, t: 8, d: 8}[code];
        this.need(size);
        const at = this.at, {view, little} = this;
        this.at += size;
        let value;
        switch (code) {
            case 'y':
                value = view.getUint8(at);
                break;
            case 'n':
                value = view.getInt16(at, little);
                break;
            case 'q':
                value = view.getUint16(at, little);
                break;
            case 'i':
                value = view.getInt32(at, little);
                break;
            case 'u':
                value = view.getUint32(at, little);
                break;
            case 'x':
                value = view.getBigInt64(at, little);
                break;
            case 't':
                value = view.getBigUint64(at, little);
                break;
            case 'd':
                value = '0x' + view.getBigUint64(at, little).toString(16).padStart(16, '0');
                break;
            case 'b':
                value = view.getUint32(at, little);
                if (value > 1) throw new Error(`the boolean at ${at} is neither 0 nor 1`);
                value = value === 1;
        }
        if (this.note) this.note(at, this.at, what, String(value));
        return value;
    }
}

// decodeMessage: the message that bytes are; throws an error that says why they are none
function decodeMessage(bytes, note) {
    const decoder = new Decoder(bytes, note);
    if (bytes.length < 16) throw new Error(`${bytes.length} bytes are fewer than a header has`);
    if (bytes[0] !== 0x6c && bytes[0] !== 0x42) throw new Error('the byte order at 0 is neither l nor B');
    note?.(0, 1, 'byte order', decoder.little ? 'l, little' : 'B, big');
    note?.(1, 2, 'type', MESSAGE_TYPES[bytes[1]] || String(bytes[1]));
    note?.(2, 3, 'flags', String(bytes[2]));
    note?.(3, 4, 'version', String(bytes[3]));
    if (!bytes[1]) throw new Error('the type at 1 is 0');
    if (bytes[3] !== 1) throw new Error('the version at 3 is not 1');
    decoder.at = 4;
    const bodyLength = decoder.u32('length of the body');
    const message = {order: decoder.little ? 'l' : 'B', type: bytes[1], flags: bytes[2], serial: decoder.u32('serial')};
    if (message.serial === 0) throw new Error('the serial at 8 is 0');
    const fieldsEnd = 16 + decoder.u32('length of the fields');
    while (decoder.at < fieldsEnd) readField(decoder, message);
    if (decoder.at !== fieldsEnd) throw new Error(`the fields pass their end at ${fieldsEnd}`);
    decoder.pad(8);
    const total = decoder.at + bodyLength;
    if (total !== bytes.length) throw new Error(`the message has ${total} bytes, and ${bytes.length} stand there`);
    const types = typesIn(message.signature ?? '');
    message.body = types.map((type, k) => decoder.value(type, `argument ${k + 1}`, 1));
    if (decoder.at !== total) throw new Error(`bytes are left behind the last value, at ${decoder.at}`);
    return message;
}

function readField(decoder, message) {
    decoder.pad(8);
    decoder.need(1);
    const code = decoder.bytes[decoder.at++];
    const name = FIELD_NAMES[code] ?? `field ${code}`;
    decoder.note?.(decoder.at - 1, decoder.at, 'field', name);
    const type = decoder.signature(decoder.named(SIGNATURE, name));
    const value = decoder.value(typesIn(type)[0] ?? 'y', name, 1);
    if (code >= 1 && code <= 8) message[name] = value.v;
}

// The text of a value and of a message, as a trace has them.
function valueText(value) {
    switch (value.type[0]) {
        case 's':
        case 'o':
        case 'g':
            return quote(value.v);
        case 'a':
            return '[' + value.v.map(valueText).join(' ') + ']';
        case '(':
            return '(' + value.v.map(valueText).join(' ') + ')';
        case '{':
            return '{' + value.v.map(valueText).join(' ') + '}';
        case 'v':
            return `<${value.v.type} ${valueText(value.v)}>`;
        default:
            return String(value.v);
    }
}

function messageText(message) {
    const words = [MESSAGE_TYPES[message.type] || `type-${message.type}`, message.order, message.flags, message.serial];
    for (const name of FIELD_NAMES.slice(1, 9))
        if (message[name] !== undefined && message[name] !== '') words.push(`${name}=${message[name]}`);
    if (message.body.length) words.push('[' + message.body.map(valueText).join(' ') + ']');
    return words.join(' ');
}
