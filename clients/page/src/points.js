// The points of a channel, in the order of their times.

/** How many points one summary covers. With summaries a million points are drawn without looking at each. */
const BLOCK = 256;

/** Branches of DataValue for a channel's values. */
const BOOLEAN = 1, STRING = 6, BYTES = 17;

/** A Float64Array with this array's first `count` numbers and room for at least `room`. */
function grown(array, count, room) {
  const next = new Float64Array(Math.max(room, 2 * array.length, 1024));
  next.set(array.subarray(0, count));
  return next;
}

class Column {
  constructor() {
    this.times = new Float64Array(1024);
    this.values = new Float64Array(1024);
    this.count = 0;
    // Values that a double can't hold, by time: texts, bytes, and longs beyond 2^53.
    this.exact = new Map();
    // The least time at which something has changed since the page was last drawn; in a new column everything has.
    this.changedFrom = -Infinity;
    this.places = this.times;
    this.blocks = {least: [], greatest: [], first: [], last: []};
  }

  /** The index of the first point at or after this time. */
  find(time) {
    let low = 0, high = this.count;
    while (low < high) {
      const middle = (low + high) >>> 1;
      if (this.times[middle] < time) low = middle + 1; else high = middle;
    }
    return low;
  }

  note(time) {
    if (time < this.changedFrom) this.changedFrom = time;
  }

  /** Adds a point after all others. */
  append(item) {
    if (this.count && item.time <= this.times[this.count - 1]) {
      throw new Fault(`the point at ${item.time} doesn't come after the last one, at ${this.times[this.count - 1]}`);
    }
    this.reserve(this.count + 1);
    this.put(this.count++, item);
    this.note(item.time);
  }

  reserve(room) {
    if (room <= this.times.length) return;
    const isOwn = this.places === this.times;
    this.times = grown(this.times, this.count, room);
    this.values = grown(this.values, this.count, room);
    if (isOwn) this.places = this.times;
  }

  put(place, {time, branch, value}) {
    this.times[place] = time;
    this.values[place] = branch === STRING || branch === BYTES || value === null ? NaN : Number(value);
    if (branch === STRING || typeof value === 'bigint') this.exact.set(time, value);
    if (branch === BYTES) this.exact.set(time, hexOf(value));
  }

  /** Drops the points whose times are in an interval, including both ends. */
  drop(begin, end) {
    const from = this.find(begin), to = this.find(end + 1);
    if (from >= to) return;
    if (this.exact.size) for (let place = from; place < to; place++) this.exact.delete(this.times[place]);
    this.times.copyWithin(from, to, this.count);
    this.values.copyWithin(from, to, this.count);
    this.count -= to - from;
    this.note(begin);
  }

  /** Inserts points in order of time. This column must have none between the first and the last of them. */
  insert(items) {
    if (!items.length) return;
    const at = this.find(items[0].time);
    if (at < this.count && this.times[at] <= items[items.length - 1].time) throw new Fault('a replacement lies over other points');
    this.reserve(this.count + items.length);
    this.times.copyWithin(at + items.length, at, this.count);
    this.values.copyWithin(at + items.length, at, this.count);
    items.forEach((item, place) => this.put(at + place, item));
    this.count += items.length;
    this.note(items[0].time);
  }

  /** The value of a point as it was sent. */
  valueAt(place) {
    const exact = this.exact.get(this.times[place]);
    return exact === undefined ? this.values[place] : exact;
  }

  get lastTime() {
    return this.count ? this.times[this.count - 1] : -Infinity;
  }

  /** Updates places and blocks after changes. A point's place is its time, or the last depth at that time. */
  settle(depth) {
    const changed = depth ? Math.min(this.changedFrom, depth.changedFrom) : this.changedFrom;
    if (changed === Infinity) return;
    const from = this.find(changed);
    if (depth) this.placeByDepth(depth, from); else this.places = this.times;
    this.sumUp(Math.floor(from / BLOCK));
  }

  placeByDepth(depth, from) {
    if (this.places === this.times || this.places.length < this.count) {
      this.places = grown(this.places === this.times ? new Float64Array(0) : this.places, Math.min(from, this.places.length), this.count);
    }
    let at = from < this.count ? depth.find(this.times[from]) : 0;
    for (let place = from; place < this.count; place++) {
      while (at < depth.count && depth.times[at] <= this.times[place]) at++;
      this.places[place] = at ? depth.values[at - 1] : NaN;
    }
  }

  sumUp(firstBlock) {
    const {least, greatest, first, last} = this.blocks, count = Math.ceil(this.count / BLOCK);
    for (const row of [least, greatest, first, last]) row.length = count;
    for (let block = firstBlock; block < count; block++) {
      const begin = block * BLOCK, end = Math.min(begin + BLOCK, this.count);
      [least[block], greatest[block]] = this.reach(this.values, begin, end);
      [first[block], last[block]] = this.reach(this.places, begin, end);
    }
  }

  /** The least and the greatest of some numbers, ignoring NaN. */
  reach(numbers, begin, end) {
    let least = Infinity, greatest = -Infinity;
    for (let place = begin; place < end; place++) {
      if (numbers[place] < least) least = numbers[place];
      if (numbers[place] > greatest) greatest = numbers[place];
    }
    return [least, greatest];
  }

  /** The least and the greatest value of the points whose places lie in an interval. */
  extent(begin, end) {
    let least = Infinity, greatest = -Infinity;
    for (let block = 0; block < this.blocks.least.length; block++) {
      if (this.blocks.last[block] < begin || this.blocks.first[block] > end) continue;
      const whole = this.blocks.first[block] >= begin && this.blocks.last[block] <= end;
      const [low, high] = whole ? [this.blocks.least[block], this.blocks.greatest[block]] : this.extentWithin(block, begin, end);
      least = Math.min(least, low);
      greatest = Math.max(greatest, high);
    }
    return [least, greatest];
  }

  extentWithin(block, begin, end) {
    let least = Infinity, greatest = -Infinity;
    for (let place = block * BLOCK; place < Math.min((block + 1) * BLOCK, this.count); place++) {
      if (!(this.places[place] >= begin && this.places[place] <= end)) continue;
      if (this.values[place] < least) least = this.values[place];
      if (this.values[place] > greatest) greatest = this.values[place];
    }
    return [least, greatest];
  }

  /** The step between two neighbours above which the curve is broken: ten times the usual one, the median of 500 steps. */
  breakStep() {
    const steps = [];
    for (let place = 1; place < this.count; place += Math.max(1, Math.floor(this.count / 500))) {
      steps.push(this.times[place] - this.times[place - 1]);
    }
    steps.sort((a, b) => a - b);
    return steps.length ? 10 * steps[steps.length >> 1] : Infinity;
  }

  /** The index of the point nearest to a place on the axis, the newest of several, or -1 if there is none. */
  nearest(wanted) {
    if (this.places === this.times) {
      const at = this.find(wanted);
      if (at === this.count) return this.count - 1;
      return at > 0 && wanted - this.times[at - 1] < this.times[at] - wanted ? at - 1 : at;
    }
    let best = -1, least = Infinity;
    for (let place = this.count - 1; place >= 0; place--) {
      const far = Math.abs(this.places[place] - wanted);
      if (far < least) [best, least] = [place, far];
    }
    return best;
  }
}

function hexOf(bytes) {
  return Array.from(bytes, byte => byte.toString(16).padStart(2, '0')).join('');
}
