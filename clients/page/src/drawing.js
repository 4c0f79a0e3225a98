// What is drawn on canvases: grids, axes, curves and texts. Places on the axis are microseconds or depths; rows and columns are CSS pixels.

const SECOND = 1e6, MINUTE = 60 * SECOND, HOUR = 60 * MINUTE, DAY = 24 * HOUR;
const TIME_STEPS = [
  1e3, 1e4, 1e5, SECOND, 2 * SECOND, 5 * SECOND, 10 * SECOND, 15 * SECOND, 30 * SECOND, MINUTE, 2 * MINUTE, 5 * MINUTE, 10 * MINUTE,
  15 * MINUTE, 30 * MINUTE, HOUR, 2 * HOUR, 3 * HOUR, 6 * HOUR, 12 * HOUR, DAY, 2 * DAY, 7 * DAY, 28 * DAY, 364 * DAY, 3640 * DAY, 36400 * DAY,
];
const TICK_GAP = 56;
const GRID = '#e9edf1', STRONG_GRID = '#c3ccd5', INK = '#1d2733', PALE_INK = '#5d6b7a';
const FONT = '12px system-ui, "DejaVu Sans", sans-serif';
const MONTHS = 'Jan Feb Mar Apr May Jun Jul Aug Sep Oct Nov Dec'.split(' ');

/** The part of the axis that is shown: its end, and how long it is. `all` shows everything, `follows` keeps the newest at the bottom. */
class View {
  constructor(span, isDepth) {
    Object.assign(this, {end: 0, span: span || 1, isDepth, all: !span, follows: true, height: 1});
  }

  get begin() {
    return this.end - this.span;
  }

  rowOf(place) {
    return (place - this.begin) / this.span * this.height;
  }

  placeOf(row) {
    return this.begin + row / this.height * this.span;
  }

  /** If the view follows the newest point, moves it there. The reach is the least and the greatest place of everything drawn. */
  follow([least, greatest]) {
    if (!(least <= greatest)) return;
    if (this.all) this.span = Math.max((greatest - least) * 1.03, this.isDepth ? 1 : SECOND);
    if (this.all || this.follows) this.end = greatest + 0.02 * this.span;
  }

  move(by) {
    this.end += by;
    this.all = this.follows = false;
  }

  /** Shows `factor` times as much. What is in this row stays there, unless the view follows the newest. */
  zoom(factor, row) {
    const kept = this.placeOf(row), part = row / this.height;
    this.span = Math.min(Math.max(this.span * factor, this.isDepth ? 0.01 : 1000), this.isDepth ? 1e6 : 36400 * DAY);
    this.all = false;
    if (!this.follows) this.end = kept + (1 - part) * this.span;
  }
}

/** The context of a canvas, cleared, with as many pixels as it covers on the screen; one unit is a CSS pixel. */
function cleared(canvas) {
  const scale = window.devicePixelRatio || 1, width = canvas.clientWidth, height = canvas.clientHeight;
  if (canvas.width !== Math.round(width * scale) || canvas.height !== Math.round(height * scale)) {
    canvas.width = Math.round(width * scale);
    canvas.height = Math.round(height * scale);
  }
  const context = canvas.getContext('2d');
  context.setTransform(scale, 0, 0, scale, 0, 0);
  context.clearRect(0, 0, width, height);
  context.font = FONT;
  return {context, width, height};
}

/** A measured value with four digits, or six from a thousand on; a whole number as it is. */
function valueText(value) {
  if (typeof value !== 'number' || Number.isInteger(value) && Math.abs(value) < 1e9) return numberText(value);
  return numberText(Number(value.toPrecision(Math.abs(value) < 1000 ? 4 : 6)));
}

/** The smallest step of at least `wanted` that is 1, 2 or 5 times a power of ten. */
function niceStep(wanted) {
  const power = 10 ** Math.floor(Math.log10(wanted));
  return [1, 2, 5, 10].map(it => it * power).find(it => it >= wanted * 0.999999) || wanted;
}

/** The places of the axis that have a label, and the step between them. */
function ticksOf(view) {
  const wanted = view.span / Math.max(view.height, 1) * TICK_GAP;
  const step = view.isDepth ? niceStep(wanted) : TIME_STEPS.find(it => it >= wanted) || niceStep(wanted);
  const ticks = [];
  for (let number = Math.ceil(view.begin / step); number * step <= view.end && ticks.length < 500; number++) ticks.push(number * step);
  return {ticks, step};
}

const two = number => String(number).padStart(2, '0');

function dateText(time) {
  const date = new Date(time / 1000);
  return Number.isNaN(date.getTime()) ? '' : `${date.getUTCDate()} ${MONTHS[date.getUTCMonth()]} ${date.getUTCFullYear()}`;
}

/** The time of day in UTC, as exact as this step between two labels needs. */
function timeText(time, step) {
  const date = new Date(time / 1000);
  if (Number.isNaN(date.getTime())) return `${time} µs`;
  const minutes = `${two(date.getUTCHours())}:${two(date.getUTCMinutes())}`;
  if (step >= MINUTE) return minutes;
  const seconds = `${minutes}:${two(date.getUTCSeconds())}`;
  return step >= SECOND ? seconds : `${seconds}.${String(Math.floor(time / 1000) % 1000).padStart(3, '0')}`;
}

function numberText(value) {
  if (typeof value !== 'number') return String(value);
  if (!Number.isFinite(value)) return Number.isNaN(value) ? '–' : String(value);
  const size = Math.abs(value);
  return size !== 0 && (size >= 1e9 || size < 1e-4) ? value.toExponential(4) : String(Number(value.toPrecision(7)));
}

function drawAxis(canvas, view) {
  const {context, width} = cleared(canvas), {ticks, step} = ticksOf(view);
  context.textAlign = 'right';
  let day = '';
  for (const tick of ticks) {
    const row = view.rowOf(tick), date = view.isDepth ? '' : dateText(tick);
    context.fillStyle = STRONG_GRID;
    context.fillRect(width - 6, Math.round(row), 6, 1);
    if (row < 8 || row > view.height - 8) continue;
    context.fillStyle = INK;
    const isDay = step >= DAY && !view.isDepth;
    context.fillText(view.isDepth ? numberText(tick) : isDay ? date : timeText(tick, step), width - 10, row + 4);
    if (!isDay && date !== day) {
      context.fillStyle = PALE_INK;
      context.fillText(date, width - 10, row + 19);
    }
    day = date;
  }
}

function drawGrid(context, width, view, scale) {
  const {ticks, step} = ticksOf(view);
  const line = (color, x, y, w, h) => { context.fillStyle = color; context.fillRect(Math.round(x), Math.round(y), w, h); };
  for (const tick of ticks) for (const part of [0.2, 0.4, 0.6, 0.8]) line(GRID, 0, view.rowOf(tick - part * step), width, 1);
  for (const [part, isStrong] of scale.lines()) line(isStrong ? STRONG_GRID : GRID, part * width, 0, 1, view.height);
  for (const tick of ticks) line(STRONG_GRID, 0, view.rowOf(tick), width, 1);
}

/** The values at a track's left and right edge, given or by what is shown. */
class Scale {
  constructor() {
    Object.assign(this, {left: 0, right: 1, given: [null, null], isLog: false});
  }

  /** Takes the least and the greatest value that are shown. */
  fit([least, greatest]) {
    if (!(least <= greatest)) [least, greatest] = [0, 1];
    const [low, high] = this.isLog ? decades(least, greatest) : rounded(least, greatest);
    // A logarithmic scale has no edge at 0 or below.
    [this.left, this.right] = [low, high].map((edge, side) => this.isLog && this.given[side] <= 0 ? edge : this.given[side] ?? edge);
    if (this.left === this.right) this.right = this.isLog ? 10 * this.left : this.left + 1;
  }

  /** The position of a value, from 0 at the left edge to 1 at the right. */
  partOf(value) {
    if (!this.isLog) return (value - this.left) / (this.right - this.left);
    return value > 0 ? Math.log(value / this.left) / Math.log(this.right / this.left) : -1;
  }

  /** The positions of the grid's lines, and whether each is a strong one: the middle, or a power of ten. */
  lines() {
    if (!this.isLog) return [1, 2, 3, 4, 5, 6, 7, 8, 9].map(it => [it / 10, it === 5]);
    const lines = [], [low, high] = [this.left, this.right].sort((a, b) => a - b);
    for (let power = 10 ** Math.floor(Math.log10(low)); power < high && lines.length < 200; power *= 10) {
      for (let digit = 1; digit < 10; digit++) lines.push([this.partOf(digit * power), digit === 1]);
    }
    return lines.filter(([part]) => part > 0 && part < 1);
  }
}

function rounded(least, greatest) {
  if (least === greatest) [least, greatest] = [least - Math.abs(least || 1) / 2, greatest + Math.abs(greatest || 1) / 2];
  const step = niceStep((greatest - least) / 10);
  const whole = number => Number((number * step).toPrecision(12));
  return [whole(Math.floor(least / step)), whole(Math.ceil(greatest / step))];
}

function decades(least, greatest) {
  if (!(greatest > 0)) return [1, 10];
  const low = 10 ** Math.floor(Math.log10(least > 0 ? least : greatest / 1000));
  return [low, Math.max(10 ** Math.ceil(Math.log10(greatest)), 10 * low)];
}

/** Draws a line from point to point; points in one row of pixels become one stroke from the least to the greatest. */
class Pen {
  constructor(context, xOf) {
    Object.assign(this, {context, xOf, isDown: false, row: null, group: null});
  }

  /** Goes on to a point, or to several in one row: their first, least, greatest and last values. */
  go(y, first, least, greatest, last) {
    if (Number.isNaN(y) || Number.isNaN(first)) return this.lift();
    const group = this.group;
    if (group && Math.floor(y) === group.row) {
      if (least < group.least) group.least = least;
      if (greatest > group.greatest) group.greatest = greatest;
      group.last = last;
      group.end = y;
    } else {
      this.flush();
      this.group = {row: Math.floor(y), y, end: y, first, least, greatest, last};
    }
  }

  flush() {
    const group = this.group, {context, xOf} = this;
    if (!group) return;
    const x = xOf(group.first);
    if (!this.isDown) context.moveTo(x - 0.75, group.y);
    context.lineTo(this.isDown ? x : x + 0.75, group.y);
    if (group.least !== group.greatest) {
      context.lineTo(xOf(group.least), group.y);
      context.lineTo(xOf(group.greatest), group.end);
    }
    context.lineTo(xOf(group.last), group.end);
    this.isDown = true;
    this.group = null;
  }

  lift() {
    this.flush();
    this.isDown = false;
  }
}

/** -1 if a block is above what is shown, 1 if it is below, otherwise 0. */
function sideOf({first, last}, block, view) {
  if (!(last[block] >= view.begin)) return -1;
  return first[block] > view.end ? 1 : 0;
}

/** Draws the curve of a column, block by block: a block in one row is one stroke, and a block outside of the view is skipped. */
function drawCurve(context, column, view, xOf) {
  const {blocks, times} = column, pen = new Pen(context, xOf), breakStep = column.breakStep();
  let outside = 0;
  context.beginPath();
  for (let block = 0; block < blocks.least.length; block++) {
    const begin = block * BLOCK, end = Math.min(begin + BLOCK, column.count), side = sideOf(blocks, block, view);
    if (side && side === outside) continue;
    const isBreak = begin > 0 && times[begin] - times[begin - 1] > breakStep;
    if (isBreak) pen.lift(); else if (outside) goTo(pen, column, view, begin - 1);
    if (side) {
      goTo(pen, column, view, begin);
      pen.lift();
    } else if (Math.floor(view.rowOf(blocks.first[block])) === Math.floor(view.rowOf(blocks.last[block]))) {
      goOver(pen, column, view, block, end);
    } else {
      goAlong(pen, column, view, begin, end, breakStep);
    }
    outside = side;
  }
  pen.flush();
  context.stroke();
}

function goTo(pen, column, view, place) {
  const value = column.values[place];
  pen.go(view.rowOf(column.places[place]), value, value, value, value);
}

/** Goes over a block whose points are all in one row. */
function goOver(pen, {blocks, values, places}, view, block, end) {
  const least = blocks.least[block], greatest = blocks.greatest[block];
  if (!(least <= greatest)) return pen.lift();
  const [first, last] = [values[block * BLOCK], values[end - 1]].map(value => Number.isNaN(value) ? least : value);
  pen.go(view.rowOf(blocks.first[block]), first, least, greatest, last);
}

function goAlong(pen, {times, values, places}, view, begin, end, breakStep) {
  const top = view.begin, scale = view.height / view.span;
  for (let place = begin; place < end; place++) {
    if (place > begin && times[place] - times[place - 1] > breakStep) pen.lift();
    const y = (places[place] - top) * scale, value = values[place], group = pen.group;
    // Most points lie in the row of the one before.
    if (group && y >= group.row && y < group.row + 1 && value >= group.least && value <= group.greatest) {
      group.last = value;
      group.end = y;
    } else {
      pen.go(y, value, value, value, value);
    }
  }
}

/** Draws texts beside their times. Of two that would overlap, the newer one is drawn. */
function drawTexts(context, column, view, color) {
  let above = Infinity;
  for (let place = column.count - 1; place >= 0; place--) {
    const row = view.rowOf(column.places[place]);
    if (!(row >= 0 && row <= view.height) || Math.abs(above - row) < 15) continue;
    context.fillStyle = color;
    context.fillRect(0, Math.round(row), 8, 1);
    context.fillStyle = INK;
    context.fillText(String(column.valueAt(place)).slice(0, 200), 11, Math.min(Math.max(row + 4, 11), view.height - 3));
    above = row;
  }
}
