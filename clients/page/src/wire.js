// The wire: the table of the schema, and messages to and from bytes in Avro's binary encoding.
//
// A long is a Number up to 2^53 and a BigInt beyond, an enumeration is the number of its symbol, a union is a pair of the number of
// its branch and the value, a map is a Map, and a record is an object. Only a DataItem has a form of its own, {channel, time, branch,
// value}, since a page reads millions of them.

/** Bytes that can't be read: a word for the cause, and the offset of the first byte of the item that is refused. */
class Refusal extends Error {
  constructor(why, at) {
    super(`${why} ${at}`);
  }
}

/** Why a message ends the link: it can't be read, or it may not come now. */
class Fault extends Error {}

const NODE_LIMIT = 8388608;
const COMPRESSED = 0x08;
const EXTENSION = 0x20;
const FINAL = 0x02;

const TYPES = new Map(
  ['null', 'boolean', 'int', 'long', 'float', 'double', 'bytes', 'string'].map(name => [name, {kind: name}]));
/** The body's type of a message by its protocol, its number and its sender, as in `21/4/S`. */
const BODIES = new Map();

function typeOf(text) {
  if (text.startsWith('[')) return {kind: 'array', item: typeOf(text.slice(1, -1))};
  if (text.startsWith('{')) return {kind: 'map', item: typeOf(text.slice(1, -1))};
  if (text.endsWith('?')) return {kind: 'union', branches: [TYPES.get('null'), typeOf(text.slice(0, -1))]};
  if (text.includes('|')) return {kind: 'union', branches: text.split('|').map(typeOf)};
  return TYPES.get(text);
}

function recordOf(name, fields) {
  return {kind: 'record', name, fields: fields.map(field => field.split(':')).map(([key, text]) => [key, typeOf(text)])};
}

function addMessage([protocol, number, senders, name, ...fields]) {
  for (const sender of senders === 'B' ? 'CS' : senders) {
    BODIES.set(`${protocol}/${number}/${sender}`, recordOf(name, fields));
  }
}

for (const line of SCHEMA.split('\n')) {
  const [form, name, ...rest] = line.split(' ');
  if (form === 'fixed') TYPES.set(name, {kind: 'fixed', size: Number(rest[0])});
  if (form === 'enum') TYPES.set(name, {kind: 'enum', count: rest.length});
  if (form === 'record') TYPES.set(name, name === 'DataItem' ? {kind: 'item'} : recordOf(name, rest));
  if (form === 'message') addMessage([name, ...rest]);
}

const DATA_VALUE = TYPES.get('DataValue');
const TEXT = new TextDecoder('utf-8', {fatal: true, ignoreBOM: true});

class Reader {
  constructor(bytes, at = 0) {
    this.bytes = bytes;
    this.view = new DataView(bytes.buffer, bytes.byteOffset, bytes.byteLength);
    this.at = at;
    this.left = NODE_LIMIT;
  }

  /** A number of at most ten bytes in zigzag. */
  number() {
    const bytes = this.bytes, start = this.at;
    let low = 0, scale = 1;
    for (let place = 0; place < 10; place++) {
      if (start + place >= bytes.length) throw new Refusal('short', start);
      const byte = bytes[start + place];
      if (place === 9 && byte > 1) throw new Refusal('number', start);
      if (byte < 128) {
        this.at = start + place + 1;
        if (place > 7 || place === 7 && byte > 15) return this.bigNumber(start, place);
        const raw = low + byte * scale;
        return bytes[start] & 1 ? -(raw + 1) / 2 : raw / 2;
      }
      low += (byte & 127) * scale;
      scale *= 128;
    }
  }

  /** The number whose last byte is this many places after its first: it may be beyond 2^53. */
  bigNumber(start, last) {
    let raw = 0n;
    for (let place = last; place >= 0; place--) raw = raw << 7n | BigInt(this.bytes[start + place] & 127);
    const whole = raw & 1n ? -(raw + 1n >> 1n) : raw >> 1n;
    const number = Number(whole);
    return Number.isSafeInteger(number) ? number : whole;
  }

  place(count) {
    const start = this.at, number = this.number();
    if (!(number >= 0 && number < count)) throw new Refusal('branch', start);
    return number;
  }

  /** The next `size` bytes, of the item that begins at `start`. */
  take(size, start) {
    if (size > this.bytes.length - this.at) throw new Refusal('short', start);
    this.at += Number(size);
    return this.bytes.subarray(this.at - Number(size), this.at);
  }

  sized() {
    const start = this.at, size = this.number();
    if (size < 0) throw new Refusal('length', start);
    return this.take(size, start);
  }

  text() {
    const start = this.at, bytes = this.sized();
    try {
      return TEXT.decode(bytes);
    } catch {
      throw new Refusal('utf8', start);
    }
  }

  /** Reads the items of an array's or a map's blocks, one call of `readItem` for each. */
  blocks(readItem) {
    for (let count = this.number(); count != 0; count = this.number()) {
      const sizeAt = this.at, size = count < 0 ? this.number() : 0;
      if (size < 0) throw new Refusal('length', sizeAt);
      const end = this.at + Number(size);
      for (let left = count < 0 ? -count : count; left > 0; left--) readItem();
      if (count < 0 && this.at !== end) throw new Refusal('blocksize', sizeAt);
    }
  }

  entry(item, into) {
    const start = this.at, name = this.text();
    if (into.has(name)) throw new Refusal('doublekey', start);
    into.set(name, this.value(item));
  }

  value(type) {
    const start = this.at;
    if (type.kind === 'item') return this.item();
    if (this.left-- === 0) throw new Refusal('limit', start);
    switch (type.kind) {
      case 'null': return null;
      case 'boolean': return this.boolean(start);
      case 'int': return this.int(start);
      case 'long': return this.number();
      case 'float': this.take(4, start); return this.view.getFloat32(start, true);
      case 'double': this.take(8, start); return this.view.getFloat64(start, true);
      case 'bytes': return this.sized();
      case 'string': return this.text();
      case 'fixed': return this.take(type.size, start);
      case 'enum': return this.place(type.count);
      case 'array': return this.array(type.item);
      case 'map': return this.map(type.item);
      case 'union': return this.union(type.branches);
      default: return this.record(type.fields);
    }
  }

  boolean(start) {
    const byte = this.take(1, start)[0];
    if (byte > 1) throw new Refusal('boolean', start);
    return byte === 1;
  }

  int(start) {
    const number = this.number();
    if (!(number >= -2147483648 && number <= 2147483647)) throw new Refusal('range', start);
    return number;
  }

  array(item) {
    const items = [];
    this.blocks(() => items.push(this.value(item)));
    return items;
  }

  map(item) {
    const entries = new Map();
    this.blocks(() => this.entry(item, entries));
    return entries;
  }

  union(branches) {
    const branch = this.place(branches.length);
    return [branch, this.value(branches[branch])];
  }

  record(fields) {
    const record = {};
    for (const [name, type] of fields) record[name] = this.value(type);
    return record;
  }

  /** A DataItem. Its time is null unless it has exactly one index, which is a long. */
  item() {
    const start = this.at, left = this.left;
    const item = left > 10 ? this.usualItem() : null;
    if (item) return item;
    this.at = start;
    this.left = left;
    const {channelId, indexes, value} = this.value(DATA_ITEM);
    const time = indexes.length === 1 && indexes[0].item[0] === 1 ? indexes[0].item[1] : null;
    return {channel: channelId, time, branch: value.item[0], value: value.item[1]};
  }

  /** An item in the usual form, in which the bytes 2 2 begin one block of one index, a long, and 0 is the empty list of attributes;
      null if it has another form. Six nodes come before its value. */
  usualItem() {
    const channel = this.number();
    if (this.bytes[this.at] !== 2 || this.bytes[this.at + 1] !== 2) return null;
    this.at += 2;
    const time = this.number();
    if (this.bytes[this.at++] !== 0) return null;
    this.left -= 6;
    const [branch, value] = this.itemValue();
    if (this.bytes[this.at++] !== 0 || this.left-- === 0) return null;
    return {channel, time, branch, value};
  }

  /** The branch and the value of a DataValue; the byte 10 begins a double. */
  itemValue() {
    if (this.bytes[this.at] !== 10 || this.bytes.length - this.at < 9) return this.value(DATA_VALUE).item;
    this.at += 9;
    this.left -= 3;
    return [5, this.view.getFloat64(this.at - 8, true)];
  }
}

const DATA_ITEM = recordOf('DataItem', SCHEMA.match(/^record DataItem (.*)$/m)[1].split(' '));

class Writer {
  constructor() {
    this.bytes = [];
  }

  number(value) {
    let rest = BigInt(value);
    rest = rest >= 0n ? rest << 1n : (-rest << 1n) - 1n;
    for (; rest > 127n; rest >>= 7n) this.bytes.push(Number(rest & 127n) | 128);
    this.bytes.push(Number(rest));
  }

  sized(bytes) {
    this.number(bytes.length);
    for (const byte of bytes) this.bytes.push(byte);
  }

  block(items, writeItem) {
    if (items.length) this.number(items.length);
    for (const item of items) writeItem(item);
    this.bytes.push(0);
  }

  value(type, value) {
    switch (type.kind) {
      case 'null': break;
      case 'boolean': this.bytes.push(value ? 1 : 0); break;
      case 'int': case 'long': case 'enum': this.number(value); break;
      case 'string': this.sized(new TextEncoder().encode(value)); break;
      case 'fixed': for (const byte of value) this.bytes.push(byte); break;
      case 'array': this.block(value, item => this.value(type.item, item)); break;
      case 'map': this.block(Object.entries(value), ([name, item]) => {
        this.value(TYPES.get('string'), name);
        this.value(type.item, item);
      }); break;
      case 'union': this.number(value[0]); this.value(type.branches[value[0]], value[1]); break;
      case 'record': for (const [name, part] of type.fields) this.value(part, value[name]); break;
      default: throw new Error(`the page writes no ${type.kind}`);
    }
  }
}

function writeMessage(header, body, value) {
  const writer = new Writer();
  writer.value(TYPES.get('MessageHeader'), header);
  writer.value(body, value);
  return new Uint8Array(writer.bytes);
}

/** Runs `read`; a refusal becomes a fault of this part of a message. */
function within(part, read) {
  try {
    return read();
  } catch (error) {
    throw error instanceof Refusal ? new Fault(`${part} ${error.message}`) : error;
  }
}

/** The header, the name and the body of a message that a server sent. A Fault says which item of it can't be read, and where it begins. */
function readMessage(bytes) {
  const front = new Reader(bytes);
  const header = within('header', () => front.value(TYPES.get('MessageHeader')));
  if (header.messageFlags & EXTENSION) throw new Fault('extension');
  if (header.messageFlags & COMPRESSED) throw new Fault('compressed');
  if (header.protocol !== 0 && header.protocol !== 21) throw new Fault(`protocol ${header.protocol}`);
  const type = BODIES.get(`${header.protocol}/${header.messageType}/S`);
  if (!type) throw new Fault(`message type ${header.messageType}`);
  const reader = new Reader(bytes, front.at);
  const body = within('body', () => reader.value(type));
  if (reader.at < bytes.length) throw new Fault(`rest ${reader.at}`);
  return {header, name: type.name, body};
}
