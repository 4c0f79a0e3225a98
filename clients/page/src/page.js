// The page: tracks side by side, the controls above them, and the foot with the state of the link.

const COLORS = ['#0b5cad', '#c0392b', '#1e7f3c', '#7a3fa0', '#b8650a', '#0f7f86', '#a8326e', '#454f5b'];
const MOST_CHANNELS = 64;
const TIME_SPANS = [['5 min', 5 * MINUTE], ['30 min', 30 * MINUTE], ['2 h', 2 * HOUR], ['12 h', 12 * HOUR], ['1 d', DAY], ['All', 0]];
const isServed = location.protocol.startsWith('http');
/** The address of something beside the page, without the password that location.href may have in it. */
const besidePage = name => new URL(name, location.origin + location.pathname).href;
const DEPTH_SPANS = [['10', 10], ['50', 50], ['250', 250], ['1000', 1000], ['All', 0]];

/** An element with a class and a text. Text from a server enters the page only through `textContent`. */
function element(name, className, text = '') {
  const made = document.createElement(name);
  made.className = className;
  made.textContent = text;
  return made;
}

/** A length of time in one unit, such as `3 s` or `2.5 h`. */
function ageText(seconds) {
  if (seconds < 100) return `${Math.max(0, Math.round(seconds))} s`;
  const [unit, size] = [['min', 60], ['h', 3600], ['d', 86400], ['y', 31557600]].findLast(([, it]) => seconds >= 1.5 * it) || ['min', 60];
  const count = seconds / size;
  return `${count < 10 ? Math.round(count * 10) / 10 : Math.round(count)} ${unit}`;
}

/** One channel's track: its head with name, unit, last value and scale, and the canvas below. */
class Track {
  constructor(channel, place, scale, faults) {
    this.channel = channel;
    this.color = COLORS[place % COLORS.length];
    this.scale = new Scale();
    this.readScale(scale || '', `scale ${place + 1}`, faults);
    this.node = element('section', 'track');
    this.canvas = element('canvas', 'plot');
    this.canvas.setAttribute('role', 'img');
    this.note = element('p', 'note');
    this.node.append(this.makeHead(), this.canvas, this.note);
  }

  /** Takes a scale as the address has it: `LEFT:RIGHT`, or `LEFT:RIGHT:log`; an empty edge fits what is shown. */
  readScale(text, word, faults) {
    const [left, right, kind, ...rest] = text.split(':');
    this.scale.given = [left, right].map(edge => numberOf(edge, word, faults));
    this.scale.isLog = kind === 'log';
    if (kind && !this.scale.isLog || rest.length) faults.push(`${word}: ${text} is not LEFT:RIGHT or LEFT:RIGHT:log`);
  }

  /** The scale as the address has it. */
  scaleText() {
    const {given, isLog} = this.scale;
    return `${given.map(it => it ?? '').join(':')}${isLog ? ':log' : ''}`;
  }

  makeHead() {
    const head = element('header', 'head'), row = element('div', 'scale'), line = element('button', 'line');
    this.name = element('h2', 'name');
    this.value = element('span', 'value');
    this.uom = element('span', 'uom');
    this.age = element('span', 'age');
    this.age.title = 'How old the last point is, or the time of the point at the cursor';
    this.edges = ['left', 'right'].map((side, place) => this.makeEdge(side, place));
    line.title = 'Linear or logarithmic';
    line.style.color = this.color;
    line.onclick = () => { this.scale.isLog = !this.scale.isLog; app.keep(); };
    this.line = line;
    row.append(this.edges[0], line, this.edges[1]);
    const reading = element('div', 'reading');
    reading.append(this.value, this.uom, this.age);
    head.append(this.name, reading, row);
    return head;
  }

  makeEdge(side, place) {
    const edge = element('input', `edge ${side}`);
    edge.title = `Value at the ${side} edge; empty: fits what is shown`;
    edge.setAttribute('aria-label', edge.title);
    edge.onchange = () => {
      const number = edge.value.trim() === '' ? NaN : Number(edge.value);
      this.scale.given[place] = Number.isFinite(number) ? number : null;
      edge.blur();
      app.keep();
    };
    return edge;
  }

  draw(view, cursor) {
    const {context, width} = cleared(this.canvas), {column} = this.channel;
    this.scale.fit(column.extent(view.begin, view.end));
    drawGrid(context, width, view, this.scale);
    context.strokeStyle = this.color;
    context.lineWidth = 1.5;
    context.lineJoin = 'round';
    context.lineCap = 'round';
    if (this.channel.hasTexts) drawTexts(context, column, view, this.color);
    else drawCurve(context, column, view, value => Math.min(Math.max(this.scale.partOf(value), -1), 2) * width);
    if (cursor !== null) {
      context.fillStyle = INK;
      context.fillRect(0, Math.round(cursor), width, 1);
    }
    this.tell(view, cursor);
  }

  /** Writes the head: the value at the cursor, or else the last one. */
  tell(view, cursor) {
    const {channel} = this, {column} = channel;
    const place = cursor === null ? column.count - 1 : column.nearest(view.placeOf(cursor));
    const value = place < 0 ? NaN : column.valueAt(place);
    this.name.textContent = channel.name;
    this.name.title = `${channel.name}\n${channel.uri}`;
    this.canvas.setAttribute('aria-label', `${channel.name} ${this.textOf(value)} ${channel.uom}`);
    this.uom.textContent = channel.uom;
    this.value.textContent = this.textOf(value);
    this.value.title = String(value);
    this.value.classList.toggle('past', cursor !== null);
    this.age.textContent = place < 0 ? '' : cursor === null ? this.ageOf(column.lastTime) : timeText(column.times[place], SECOND);
    this.edges.forEach((edge, side) => {
      if (document.activeElement !== edge) edge.value = channel.hasTexts ? '' : numberText(side ? this.scale.right : this.scale.left);
      edge.classList.toggle('given', this.scale.given[side] !== null);
    });
    this.line.classList.toggle('log', this.scale.isLog);
    this.note.textContent = channel.trouble || (channel.isCut ? `the latest ${LATEST_COUNT.toLocaleString('en')} points and what came since` : '');
    this.note.classList.toggle('trouble', channel.trouble !== '');
    this.node.classList.toggle('still', !channel.isFollowed);
    this.node.classList.toggle('texts', channel.hasTexts);
  }

  textOf(value) {
    return this.channel.isBoolean && !Number.isNaN(value) ? String(value === 1) : valueText(value);
  }

  ageOf(time) {
    return ageText((app.link.now() - time) / SECOND);
  }
}

/** Everything on the page. */
class App {
  constructor(address) {
    const words = new URLSearchParams(address), uris = words.getAll('channel');
    // What is wrong with the address.
    this.faults = uris.length > MOST_CHANNELS ? [`only the first ${MOST_CHANNELS} of ${uris.length} channels are drawn`] : [];
    this.uris = uris.slice(0, MOST_CHANNELS);
    this.depthUri = words.get('depth');
    this.url = words.get('url') || (isServed ? besidePage('etp').replace('http', 'ws') : '');
    this.from = momentOf(words.get('from'), this.faults);
    this.unit = this.depthUri ? 1 : SECOND;
    const span = numberOf(words.get('span'), 'span', this.faults) ?? (this.depthUri ? 0 : 1800);
    if (span < 0) this.faults.push(`span: ${span} is negative`);
    this.view = new View(Math.max(span, 0) * this.unit, this.depthUri !== null);
    this.scales = words.getAll('scale');
    if (this.scales.length > this.uris.length) this.faults.push(`scale ${this.uris.length + 1}: there is no channel for it`);
    this.events = [];
    this.cursor = null;
    this.isScheduled = false;
    this.frameTime = 0;
  }

  start() {
    const uris = [...new Set([...this.uris, ...this.depthUri ? [this.depthUri] : []])];
    this.link = new Link(this.url, uris, this.from, (state, text) => this.tellState(state, text));
    const byUri = new Map(this.link.channels.map(channel => [channel.uri, channel]));
    this.depth = this.depthUri ? byUri.get(this.depthUri) : null;
    this.tracks = this.uris.map((uri, place) => new Track(byUri.get(uri), place, this.scales[place], this.faults));
    document.getElementById('faults').textContent = this.faults.join('; ');
    this.axis = document.getElementById('axis');
    document.getElementById('tracks').append(...this.tracks.map(track => track.node));
    this.makeSpans();
    this.listen();
    this.link.onchange = () => this.schedule();
    try {
      this.link.connect();
    } catch (error) {
      this.tellState('waiting', `${this.url} can't be opened: ${error.message}`);
    }
    setInterval(() => this.schedule(), 1000);
    this.schedule();
  }

  makeSpans() {
    const row = document.getElementById('spans');
    this.spans = (this.view.isDepth ? DEPTH_SPANS : TIME_SPANS).map(([name, span]) => {
      const button = element('button', 'span', name);
      button.onclick = () => {
        Object.assign(this.view, {all: span === 0, follows: true, span: span || this.view.span});
        this.keep();
      };
      row.append(button);
      return [button, span];
    });
  }

  tellState(state, text) {
    this.events.push(`${new Date().toISOString().slice(11, 19)} ${text}`);
    if (this.events.length > 500) this.events.shift();
    document.getElementById('state').className = state;
    document.getElementById('told').textContent = text;
    const list = document.getElementById('events');
    list.prepend(element('li', state, this.events[this.events.length - 1]));
    if (list.children.length > 50) list.lastChild.remove();
    this.schedule();
  }

  /** Draws after a change by hand, and stores the change in the address, for reloads and bookmarks. */
  keep() {
    const words = new URLSearchParams(location.search);
    words.delete('scale');
    for (const track of this.tracks) words.append('scale', track.scaleText());
    words.set('span', this.view.all ? 0 : this.view.span / this.unit);
    history.replaceState(null, '', `?${words}`);
    this.schedule();
  }

  schedule() {
    if (this.isScheduled) return;
    this.isScheduled = true;
    requestAnimationFrame(() => this.draw());
  }

  draw() {
    const begun = performance.now();
    this.isScheduled = false;
    this.settle();
    this.view.height = this.tracks[0].canvas.clientHeight;
    this.view.follow(this.reach());
    drawAxis(this.axis, this.view);
    for (const track of this.tracks) track.draw(this.view, this.cursor);
    this.tellFoot();
    this.frameTime = performance.now() - begun;
  }

  settle() {
    const depth = this.depth ? this.depth.column : null;
    for (const track of this.tracks) track.channel.column.settle(depth);
    for (const channel of this.link.channels) channel.column.changedFrom = Infinity;
  }

  /** The least and the greatest place of everything that is drawn; the last half hour if there are no points. */
  reach() {
    let least = Infinity, greatest = -Infinity;
    for (const {channel: {column: {blocks, places, times, count}}} of this.tracks) {
      if (!count) continue;
      const isSorted = places === times;
      for (const first of isSorted ? [times[0]] : blocks.first) if (first < least) least = first;
      for (const last of isSorted ? [times[count - 1]] : blocks.last) if (last > greatest) greatest = last;
    }
    return least <= greatest || this.view.isDepth ? [least, greatest] : [this.link.now() - 30 * MINUTE, this.link.now()];
  }

  tellFoot() {
    const {channels} = this.link, newest = Math.max(...channels.map(channel => channel.column.lastTime));
    const points = channels.reduce((sum, channel) => sum + channel.column.count, 0);
    const behind = newest === -Infinity ? 'no point yet' : `${ageText((this.link.now() - newest) / SECOND)} behind`;
    document.getElementById('behind').textContent = behind;
    document.getElementById('held').textContent = `${points.toLocaleString('en')} point${points === 1 ? '' : 's'} held`;
    document.getElementById('server').textContent = this.link.server;
    document.title = this.link.server ? `${this.link.server} – log` : 'Log';
    const depthUnit = this.depth ? this.depth.uom : '';
    document.getElementById('unit').textContent = this.depth ? `${this.depth.name}${depthUnit && `, ${depthUnit}`}` : 'Time, UTC';
    document.getElementById('where').textContent = this.cursorText();
    document.getElementById('newest').classList.toggle('on', this.view.follows);
    for (const [button, span] of this.spans) button.classList.toggle('on', span ? !this.view.all && this.view.span === span : this.view.all);
  }

  cursorText() {
    if (this.cursor === null) return '';
    const place = this.view.placeOf(this.cursor);
    return this.view.isDepth ? numberText(Number(place.toPrecision(7))) : `${dateText(place)} ${timeText(place, SECOND)}`;
  }

  /** Wheel, drag and keys move along the axis; the wheel with Ctrl zooms, and so do + and -. */
  listen() {
    const log = document.getElementById('log'), rowOf = event => event.clientY - this.axis.getBoundingClientRect().top;
    log.addEventListener('wheel', event => {
      // If the tracks are wider than the window, turning it sideways scrolls them.
      if (event.shiftKey || Math.abs(event.deltaX) > Math.abs(event.deltaY)) return;
      event.preventDefault();
      const turned = event.deltaY * (event.deltaMode === 1 ? 16 : 1);
      this.act(() => event.ctrlKey ? this.view.zoom(1.002 ** turned, rowOf(event)) : this.view.move(turned / this.view.height * this.view.span));
    }, {passive: false});
    log.addEventListener('pointerdown', event => {
      if (event.target.tagName === 'CANVAS') this.dragged = event.clientY;
    });
    log.addEventListener('pointermove', event => this.follow(event, rowOf(event)));
    window.addEventListener('pointerup', () => { this.dragged = null; });
    log.addEventListener('pointerleave', () => this.act(() => { this.cursor = null; }));
    window.addEventListener('keydown', event => this.press(event));
    window.addEventListener('resize', () => this.schedule());
    window.addEventListener('pagehide', () => this.link.close());
    window.addEventListener('pageshow', event => event.persisted && this.link.connect());
    document.getElementById('newest').onclick = () => this.act(() => { this.view.follows = true; });
    document.getElementById('in').onclick = () => this.act(() => this.view.zoom(0.5, this.view.height / 2));
    document.getElementById('out').onclick = () => this.act(() => this.view.zoom(2, this.view.height / 2));
  }

  act(action) {
    action();
    this.schedule();
  }

  follow(event, row) {
    this.act(() => {
      this.cursor = row >= 0 && row <= this.view.height ? row : null;
      if (this.dragged == null) return;
      this.view.move((this.dragged - event.clientY) / this.view.height * this.view.span);
      this.dragged = event.clientY;
    });
  }

  press(event) {
    const {view} = this, moves = {ArrowUp: -0.1, ArrowDown: 0.1, PageUp: -0.9, PageDown: 0.9};
    if (event.target.tagName === 'INPUT' || event.ctrlKey || event.metaKey) return;
    if (event.key in moves) this.act(() => view.move(moves[event.key] * view.span));
    else if (event.key === 'End') this.act(() => { view.follows = true; });
    else if (event.key === '+' || event.key === '-') this.act(() => view.zoom(event.key === '+' ? 0.5 : 2, view.height / 2));
    else return;
    event.preventDefault();
  }
}

/** The number in a text, or null if it is empty. A text that is not a number is a fault, told with its place in the address. */
function numberOf(text, place, faults) {
  if (!text) return null;
  const number = Number(text);
  if (Number.isFinite(number)) return number;
  faults.push(`${place}: ${text} is not a number`);
  return null;
}

/** A moment as the address has it: a negative number of seconds before now, or a date; null for the channel's beginning. */
function momentOf(text, faults) {
  if (!text) return null;
  const number = Number(text), date = number >= 0 ? NaN : Date.parse(text);
  if (number < 0) return number;
  if (!Number.isNaN(date)) return date;
  faults.push(`from: ${text} is neither a date nor a number of seconds before now, as -3600`);
  return null;
}

/** The form that offers the channels in catalog.json beside the page, since a server can't be asked which channels it has. */
class Setup {
  constructor(app) {
    this.form = document.getElementById('setup');
    this.form.hidden = false;
    document.body.classList.add('choosing');
    this.form.elements.url.value = app.url;
    this.form.onsubmit = event => { event.preventDefault(); this.open(); };
    this.offer();
  }

  async offer() {
    if (!isServed) return;
    try {
      const answer = await fetch(besidePage('catalog.json'));
      if (answer.ok) this.list((await answer.json()).channels);
    } catch {
      // Without a catalog the URIs have to be typed.
    }
  }

  list(channels) {
    const box = document.getElementById('offered'), depth = this.form.elements.depth;
    for (const {uri, name, uom} of channels) {
      const label = element('label', 'offer'), tick = element('input', 'tick'), choice = element('option', '', `${name} ${uom || ''}`);
      tick.type = 'checkbox';
      tick.value = choice.value = uri;
      label.append(tick, element('span', 'name', name), element('span', 'uom', uom || ''));
      box.append(label);
      depth.append(choice);
    }
  }

  open() {
    const words = new URLSearchParams({url: this.form.elements.url.value});
    const ticked = [...this.form.querySelectorAll('.tick:checked')].map(tick => tick.value);
    const typed = this.form.elements.uris.value.split('\n').map(line => line.trim()).filter(line => line);
    for (const uri of [...ticked, ...typed]) words.append('channel', uri);
    if (this.form.elements.depth.value) words.set('depth', this.form.elements.depth.value);
    if (this.form.elements.from.value) words.set('from', this.form.elements.from.value);
    location.search = words;
  }
}

const app = new App(location.search);
if (app.uris.length && app.url) app.start(); else new Setup(app);
