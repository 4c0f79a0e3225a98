// The link to a server: its session, the requests, and what the server sends.

const SUBPROTOCOL = 'etp12.energistics.org';
const VERSION = {major: 1, minor: 2, revision: 0, patch: 0};
const LONG = 1;
/** The least index that a channel may have. */
const LEAST_INDEX = -(2n ** 62n);
/** How many of its latest points are asked for if a channel has too many for one answer, code 12. */
const LATEST_COUNT = 500000;
const LIMIT_EXCEEDED = 12;
/** The code with which a server that is stopped ends its links (RFC 6455, 7.4.1). */
const GOING_AWAY = 1001;
/** Places of ChannelDataKind. */
const TYPE_BOOLEAN = 5, TYPE_STRING = 10, TYPE_BYTES = 11;
/** The longest message that the server may send in one part, in bytes: so short that reading one never holds up the page. */
const PART_LIMIT = 1 << 20;
/** How long a new link may take until its session is open, how often a Ping is sent, and how long its answer may take, in ms. */
const OPEN_PATIENCE = 10000, PING_EVERY = 15000, ANSWER_PATIENCE = 60000;
/** A link that lasted this long was a good one: the next wait is the shortest again, in ms. */
const STOOD = 30000;

/** A channel of the server that the page follows. */
class Channel {
  constructor(uri) {
    this.uri = uri;
    this.name = uri;
    this.uom = '';
    this.id = null;
    this.column = new Column();
    // Why it isn't followed, in words; and whether its oldest points are missing.
    this.trouble = '';
    this.isCut = false;
    this.isFollowed = false;
    this.isBoolean = this.hasTexts = false;
  }

  take(record) {
    [this.id, this.name, this.uom] = [record.id, record.channelName, record.uom];
    this.isBoolean = record.dataKind === TYPE_BOOLEAN;
    this.hasTexts = record.dataKind === TYPE_STRING || record.dataKind === TYPE_BYTES;
  }

  begin() {
    this.column = new Column();
    this.trouble = '';
    this.isFollowed = true;
  }
}

/** Follows the channels of one server. After a broken link it connects again and starts over with a new copy. */
class Link {
  /** `from` is null for whole channels, a negative number of seconds before now, or a moment in ms. `tell(state, text)` is called
      with each change of the state: `connecting`, `connected` or `waiting`. */
  constructor(url, uris, from, tell) {
    this.url = url;
    this.channels = uris.map(uri => new Channel(uri));
    this.from = from;
    this.tell = tell;
    this.delays = [1000, 2000, 4000, 8000, 16000, 30000];
    this.failures = 0;
    this.server = '';
    // How far the server's clock is ahead of the browser's, in microseconds.
    this.skew = 0;
    this.socket = null;
    /** Called after each message that was taken. */
    this.onchange = () => {};
  }

  now() {
    return Date.now() * 1000 + this.skew;
  }

  connect() {
    clearTimeout(this.timer);
    this.tell('connecting', `connecting to ${this.url}`);
    Object.assign(this, {nextId: 2, lastId: 0, asks: new Map(), kept: null, isOpen: false, byId: new Map(), begun: Date.now(), heard: 0, pinged: 0});
    const socket = new WebSocket(this.url, [SUBPROTOCOL]);
    this.socket = socket;
    socket.binaryType = 'arraybuffer';
    socket.onopen = () => this.socket === socket && this.openSession();
    socket.onmessage = event => this.socket === socket && this.hear(event.data);
    socket.onclose = event => this.socket === socket && this.lose(event.reason || `${event.code === GOING_AWAY ? 'the server goes away' : 'the link broke'} (${event.code})`);
    this.watch = setInterval(() => this.keep(), 1000);
  }

  /** Keeps a link alive, and gives up one that doesn't answer. A hidden page is called once a minute, so only what came since the last
      Ping counts. */
  keep() {
    const now = Date.now();
    if (!this.isOpen) {
      if (now - this.begun > OPEN_PATIENCE) this.lose('no session within 10 s');
    } else if (this.pinged > this.heard) {
      if (now - this.pinged > ANSWER_PATIENCE) this.lose('no answer for 60 s');
    } else if (now - this.pinged > PING_EVERY) {
      this.ping();
    }
  }

  ping() {
    this.pinged = Date.now();
    this.send(0, 8, {currentDateTime: this.pinged * 1000});
  }

  /** The link is over: the next one comes after a while. */
  lose(reason) {
    clearInterval(this.watch);
    const socket = this.socket;
    this.socket = null;
    socket.close();
    if (Date.now() - this.begun > STOOD) this.failures = 0;
    const delay = this.delays[Math.min(this.failures++, this.delays.length - 1)];
    for (const channel of this.channels) channel.isFollowed = false;
    this.tell('waiting', `${reason}; next try in ${Math.max(1, Math.round(delay / 1000))} s`);
    this.timer = setTimeout(() => this.connect(), delay);
  }

  /** Ends for good. */
  close() {
    clearTimeout(this.timer);
    clearInterval(this.watch);
    if (this.socket && this.isOpen) this.send(0, 5, {reason: ''});
    if (this.socket) this.socket.close(1000);
    this.socket = null;
  }

  send(protocol, number, body) {
    const messageId = this.nextId;
    this.nextId += 2;
    const header = {protocol, messageType: number, correlationId: 0, messageId, messageFlags: FINAL};
    this.socket.send(writeMessage(header, BODIES.get(`${protocol}/${number}/C`), body));
    return messageId;
  }

  openSession() {
    const wanted = {protocol: 21, protocolVersion: VERSION, role: 'store', protocolCapabilities: {}};
    const id = this.send(0, 1, {
      applicationName: 'log page', applicationVersion: '1', clientInstanceId: crypto.getRandomValues(new Uint8Array(16)),
      requestedProtocols: [wanted], supportedDataObjects: [], supportedCompression: [], supportedFormats: ['xml'],
      currentDateTime: Date.now() * 1000, earliestRetainedChangeTime: 0, serverAuthorizationRequired: false,
      endpointCapabilities: {MaxWebSocketMessagePayloadSize: {item: [3, PART_LIMIT]}},
    });
    this.asks.set(id, {reply: 'OpenSession'});
  }

  askForMetadata() {
    const uris = Object.fromEntries(this.channels.map((channel, place) => [`c${place}`, channel.uri]));
    const asked = new Map(this.channels.map((channel, place) => [`c${place}`, channel]));
    this.asks.set(this.send(21, 1, {uris}), {reply: 'GetChannelMetadataResponse', asked});
  }

  /** Subscribes to a channel from the wanted moment on, or to its latest points. Each channel has its own request, and so its own limit. */
  subscribe(channel, isCut) {
    const info = {
      channelId: channel.id, startIndex: {item: [LONG, this.firstIndex()]}, dataChanges: true,
      requestLatestIndexCount: isCut ? [1, LATEST_COUNT] : [0, null],
    };
    channel.isCut = isCut;
    this.asks.set(this.send(21, 3, {channels: {c: info}}), {reply: 'SubscribeChannelsResponse', asked: new Map([['c', channel]])});
  }

  firstIndex() {
    if (this.from === null) return LEAST_INDEX;
    return Math.round(this.from < 0 ? this.now() + this.from * 1e6 : this.from * 1000);
  }

  hear(data) {
    this.heard = Date.now();
    try {
      if (typeof data === 'string') throw new Fault('a text message');
      this.take(readMessage(new Uint8Array(data)));
      this.onchange();
    } catch (error) {
      if (!(error instanceof Fault)) throw error;
      this.lose(`message refused: ${error.message}`);
    }
  }

  /** Takes a message. Each part is used as it comes; parts of two messages must not mix. */
  take({header, name, body}) {
    if (!(header.messageId > this.lastId)) throw new Fault(`the id ${header.messageId} comes after ${this.lastId}`);
    this.lastId = header.messageId;
    if (name === 'Acknowledge' || name === 'Pong') return;
    if (name === 'Ping') return void this.send(0, 9, {currentDateTime: Date.now() * 1000});
    if (name === 'CloseSession') return this.lose('the server closed the session');
    if (!this.isOpen && name !== 'OpenSession' && name !== 'ProtocolException') throw new Fault(`${name} before the session is open`);
    const isFurther = this.isFurtherPart(header, name);
    this.kept = header.messageFlags & FINAL ? null : {name, correlation: header.correlationId};
    const isNotice = TELLING[name];
    if (isNotice && header.correlationId === 0) return isNotice.call(this, body, isFurther);
    this.takeReply(header, name, body);
  }

  isFurtherPart({correlationId}, name) {
    if (!this.kept) return false;
    if (this.kept.correlation !== correlationId || this.kept.name !== name && name !== 'ProtocolException') {
      throw new Fault(`${name} amid the parts of ${this.kept.name}`);
    }
    return this.kept.name === name;
  }

  takeReply({correlationId, messageFlags}, name, body) {
    const ask = this.asks.get(correlationId);
    if (!ask || name !== ask.reply && name !== 'ProtocolException') throw new Fault(`${name} was not asked for`);
    if (messageFlags & FINAL) this.asks.delete(correlationId);
    if (name === 'ProtocolException') return this.takeRefusal(ask, body);
    if (name === 'OpenSession') return this.takeSession(body);
    for (const [key, value] of name === 'GetChannelMetadataResponse' ? body.metadata : body.success) {
      const channel = ask.asked.get(key);
      if (!channel) throw new Fault(`${name} has a key that was not asked for`);
      if (name === 'GetChannelMetadataResponse') this.takeMetadata(channel, value); else this.begin(channel);
    }
  }

  takeSession(body) {
    if (!body.supportedProtocols.some(it => it.protocol === 21)) throw new Fault('the server has no channels to subscribe to');
    this.isOpen = true;
    this.pinged = this.heard;
    this.server = body.applicationName;
    this.skew = Number(body.currentDateTime) - Date.now() * 1000;
    this.tell('connected', `connected to ${this.server} at ${this.url}`);
    if (this.channels.length) this.askForMetadata();
  }

  takeMetadata(channel, record) {
    channel.take(record);
    this.subscribe(channel, false);
  }

  begin(channel) {
    channel.begin();
    this.byId.set(channel.id, channel);
  }

  /** If a channel is refused because it has too many points, its latest ones are asked for. Any other refusal is shown in its track. */
  takeRefusal(ask, {error: [, whole], errors}) {
    if (ask.reply === 'OpenSession') throw new Fault(`no session: ${errorText(whole)}`);
    const refused = whole ? [...ask.asked].map(([key]) => [key, whole]) : [...errors];
    for (const [key, info] of refused) {
      const channel = ask.asked.get(key);
      if (!channel) throw new Fault('a refusal of a key that was not asked for');
      const isTooMany = info.code === LIMIT_EXCEEDED && ask.reply === 'SubscribeChannelsResponse' && !channel.isCut;
      if (isTooMany) this.subscribe(channel, true); else channel.trouble = errorText(info);
    }
  }

  followed(id) {
    const channel = this.byId.get(id);
    if (!channel) throw new Fault(`points of the channel ${id}, which is not subscribed`);
    return channel.column;
  }

  tellPoints({data}) {
    for (const item of data) this.followed(item.channel).append(pointOf(item));
  }

  tellReplacement({channelIds, changedInterval, data}, isFurther) {
    const [begin, end] = [indexOf(changedInterval.startIndex), indexOf(changedInterval.endIndex)];
    const points = new Map(channelIds.map(id => [id, []]));
    for (const item of data) {
      if (!points.has(item.channel)) throw new Fault(`a replacement has points of the channel ${item.channel}, which it doesn't name`);
      points.get(item.channel).push(pointOf(item));
    }
    for (const [id, items] of points) {
      checkWithin(items, begin, end);
      if (!isFurther) this.followed(id).drop(begin, end);
      this.followed(id).insert(items);
    }
  }

  tellTruncation({channels}) {
    for (const {channelId, newEndIndex} of channels) this.followed(channelId).drop(indexOf(newEndIndex) + 1, Infinity);
  }

  /** Takes the end of subscriptions. Those that ended because the page fell behind begin again. */
  tellStop({reason, channelIds}) {
    for (const id of channelIds.values()) {
      const channel = this.byId.get(id);
      if (!channel) throw new Fault(`the end of the channel ${id}, which is not subscribed`);
      this.byId.delete(id);
      channel.isFollowed = false;
      channel.trouble = `ended by the server: ${reason}`;
      if (reason.startsWith('lagged')) this.subscribe(channel, channel.isCut);
    }
    this.tell('connected', `the server ended the subscriptions: ${reason}`);
  }
}

/** Which function takes each notice. */
const TELLING = {
  __proto__: null, ChannelData: Link.prototype.tellPoints, RangeReplaced: Link.prototype.tellReplacement,
  ChannelsTruncated: Link.prototype.tellTruncation, SubscriptionsStopped: Link.prototype.tellStop,
};

function errorText(info) {
  return info ? `${info.message} (${info.code})` : 'refused';
}

function indexOf({item: [branch, value]}) {
  if (branch !== LONG) throw new Fault('an index that is no long');
  return Number(value);
}

function pointOf(item) {
  if (item.time === null) throw new Fault('a point without one index that is a long');
  if (typeof item.time !== 'number') throw new Fault(`a time beyond 2^53, ${item.time}, which the page can't draw`);
  return item;
}

function checkWithin(items, begin, end) {
  items.forEach(({time}, place) => {
    if (time < begin || time > end) throw new Fault(`a replacement has a point at ${time}, outside of its interval`);
    if (place && time <= items[place - 1].time) throw new Fault(`a replacement has a point at ${time} out of order`);
  });
}
