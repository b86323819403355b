// The span that all diagrams show, the line that is selected, and what all diagrams have.

const view = {byLine: false, x: new Float64Array(0), low: 0, high: 1, from: 0, to: 1, selected: -1};
const shownSpaces = [true, true, true];
// What the key hides, by its words there.
const hidden = new Set();
const isShown = name => !hidden.has(name);
const OTHERS = 'other violation', CULPRIT = 'refused value', TIMED = 'timer set';
const MARKS = {
  pto: 'probe timeout', loss: 'loss timer', discard: 'handshake event',
  confirmed: 'handshake event', keys: 'handshake event',
};
const charts = {};
// Above so many lines that depart each is drawn as a tick of this height, in pixels.
const MANY_DEPARTURES = 40;
const TICK = 12;
// How many round-trips are shown before a line that is looked for, and how many after it: at most
// this share of the run, and as many lines as this unless that takes several times the span.
const TRIPS = [2, 1];
const MOST_SHARE = 1 / 3;
const LEAST_LINES = 12;
const MOST_TIMES = 8;
let frameWanted = 0, frames = 0, lastFrame = 0;

// The x of each line: its time in milliseconds, which never falls here, or its number.
function setAxis() {
  const {count, first, time, scale} = trace;
  const x = new Float64Array(count);
  let begin = 0;
  while (begin < count - 1 && !hasTime(begin)) begin++;
  let latest = count ? time[begin] / scale : 0;
  for (let i = 0; i < count; i++) {
    if (i > begin && time[i] / scale > latest) latest = time[i] / scale;
    x[i] = view.byLine ? first + i : latest + trace.shift;
  }
  const last = count ? x[count - 1] : 1, start = count ? x[0] : 0, span = last - start || 1;
  Object.assign(view, {x, low: start - span * 0.015, high: last + span * 0.03});
  setPacketAxis();
}

// The x of each packet, also of one from before the lines that are shown.
function setPacketAxis() {
  const {packets} = trace, {at, line, before} = packets;
  packets.x = Float64Array.from(at, (place, p) =>
    place >= 0 ? view.x[place] : view.byLine ? line[p] : xOfTime(before[p]));
}

// The first place whose x is not below this one.
const placeAt = x => firstNotBelow(view.x, x);

// The x of a time of the trace, on the axis of times.
const xOfTime = time => time / trace.scale + trace.shift;

// The last place whose x is not above this one; -1 for none.
function lastPlaceAt(x) {
  let at = placeAt(x);
  while (at < trace.count && view.x[at] === x) at++;
  return at - 1;
}

// The x of a place, of one behind the lines that are shown, and of a packet.
const xOf = place => place < trace.count ? view.x[place] : view.high;
const xOfPacket = packet => trace.packets.x[packet];

const isSeen = x => x >= view.from && x <= view.to;

function show(from, to) {
  const all = view.high - view.low, least = view.byLine ? 4 : Math.min(all, 2 / trace.scale);
  if (!(to - from > least)) {
    const middle = (from + to) / 2;
    from = middle - least / 2;
    to = middle + least / 2;
  }
  if (to - from > all) [from, to] = [view.low, view.high];
  const by = Math.max(0, view.low - from) - Math.max(0, to - view.high);
  showSpan(from + by, to + by);
  pair?.otherOf(RUN)?.showSpan(view.from, view.to);
}

function showSpan(from, to) {
  Object.assign(view, {from, to});
  redraw();
}

const showAll = () => show(view.low, view.high);

function zoom(by, center) {
  const x = view.selected >= 0 ? view.x[view.selected] : NaN;
  const about = center ?? (isSeen(x) ? x : (view.from + view.to) / 2);
  show(about - (about - view.from) * by, about + (view.to - about) * by);
}

function pan(share) {
  const by = (view.to - view.from) * share;
  show(view.from + by, view.to + by);
}

// Shows lines with some about them, and a little room at the sides.
function showAround(first, last, margin) {
  const from = view.x[Math.max(0, first - margin)];
  const to = view.x[Math.min(trace.count - 1, last + margin)];
  const room = (to - from) * 0.05 || (view.byLine ? 5 : 1);
  show(from - room, to + room);
}

// Shows a line with a few round-trips about it, with the silence before it and the deadline that
// decides of it; by line, with some lines about it.
function showAbout(place) {
  if (view.byLine) return showAround(place, place, 40);
  const x = view.x[place], all = view.high - view.low;
  const trip = Math.min(tripAt(place), all * MOST_SHARE / (TRIPS[0] + TRIPS[1]));
  let from, to, times = 1;
  do {
    [from, to] = [x - TRIPS[0] * trip * times, x + TRIPS[1] * trip * times];
    times *= 2;
  } while (times <= MOST_TIMES && placeAt(to) - placeAt(from) < LEAST_LINES);
  from = Math.min(from, x - silentBefore(place));
  const deadline = place === trace.verdictAt ? xOfTime(trace.verdict.deadline ?? NaN) : NaN;
  if (deadline < view.high) to = Math.max(to, deadline);
  const room = (to - from) * 0.04;
  if (to - from > all * 0.8) return showAll();
  return show(from - room, to + room);
}

// A round-trip at a line, in milliseconds: the smoothed one; before the first sample, that.
function tripAt(place) {
  const {firstSample, limit, count, scale, state} = trace;
  const last = Math.min(limit, count) - 1, at = Math.max(Math.min(place, last), firstSample);
  return state.smoothed_rtt[Math.min(at, last)] / scale || (view.high - view.low) / 20;
}

// How long nothing but reports had come before a line while something was awaited.
function silentBefore(place) {
  let at = place - 1;
  while (at >= 0 && (!hasTime(at) || trace.kind[at] === 'm')) at--;
  const {in_flight: flying, timer} = trace.state;
  const isAwaited = at >= 0 && (flying[at] > 0 || timer[at] !== NO_SPACE);
  return isAwaited ? view.x[place] - view.x[at] : 0;
}

function redraw() {
  if (!frameWanted) frameWanted = requestAnimationFrame(update);
}

function update() {
  if (frameWanted) cancelAnimationFrame(frameWanted);
  frameWanted = 0;
  const begun = performance.now();
  // First what asks for sizes, before anything changes them.
  updateStrip();
  updatePackets();
  updateWindow();
  updateHeadroom();
  updateRtt();
  moveCursors();
  lastFrame = performance.now() - begun;
  frames++;
  drawAheadLater();
}

// Where a diagram has an x and a y, in pixels.
function scaleOf(area, range) {
  const byX = area.w / (view.to - view.from), byY = area.h / (range[1] - range[0]);
  return {
    x: value => area.x + (value - view.from) * byX,
    y: value => area.y + area.h - (value - range[0]) * byY,
  };
}

// Below the data of each diagram: what was not judged, and what happened.
function drawUnder(context, area) {
  const to = scaleOf(area, [0, 1]);
  context.save();
  context.beginPath();
  context.rect(area.x, area.y, area.w, area.h);
  context.clip();
  if (trace.limit < trace.count) {
    const from = to.x(view.x[trace.limit]), x = Math.max(area.x, from);
    if (x < area.x + area.w) hatched(context, x, area.y, area.x + area.w - x, area.h, area.x);
  }
  const seen = trace.marks.filter(mark => isSeen(view.x[mark.at]) && isShown(MARKS[mark.of]));
  let before = -9;
  for (const mark of seen) {
    const x = to.x(view.x[mark.at]);
    if (x - before < 1) continue;
    before = x;
    const alpha = seen.length > 80 ? 0.3 : 0.75;
    upright(context, area, x, toneOfMark(mark.of), 1, DASHES[mark.of], alpha);
  }
  context.restore();
}

// Above the data: what departs, the line of the verdict and the one that ends the trace, with the
// deadlines that decide, and the one selected. The diagram has all flags, those of the verdict, or
// where null is given none.
function drawOver(context, area, hasLabels) {
  const to = scaleOf(area, [0, 1]), departed = drawDeparted(context, area, to);
  const verdicts = [[trace.verdictAt, trace.verdict], [trace.endAt, trace.end]];
  const flags = verdicts.filter(([at]) => at >= 0)
    .map(([at, verdict]) => drawVerdict(context, area, to, at, verdict));
  if (view.selected >= 0) {
    const x = to.x(view.x[view.selected]);
    upright(context, area, x, colors.ink, 1, []);
  }
  for (const [, verdict] of verdicts) {
    const flag = drawDeadline(context, area, to, verdict);
    if (flag && hasLabels) flags.push(flag);
  }
  if (!hasLabels) return hasLabels === null || drawFlags(context, area, flags);
  flags.push(...departed);
  let before = -9, at = -1;
  for (const mark of trace.marks) {
    const x = to.x(view.x[mark.at]);
    // Of thousands of marks a few have a flag.
    if (!isSeen(view.x[mark.at]) || !isShown(MARKS[mark.of]) || (x - before < 4 && mark.at > at + 20)) continue;
    [before, at] = [x, mark.at];
    flags.push({x, text: mark.label, color: toneOfMark(mark.of)});
  }
  return drawFlags(context, area, flags);
}

// The upright of a line that is refused or cannot be read; its flag.
function drawVerdict(context, area, to, at, verdict) {
  const {line, rule, name, kind} = verdict, x = to.x(view.x[at]), color = colors.refused;
  upright(context, area, x, color, 2.5, []);
  const sign = kind === 'refused' ? '\u2717' : '?';
  return {x, text: `${sign} line ${line}: ${rule} ${name}`, color, full: true};
}

// The deadline that decides of a verdict, where there is one; its flag.
function drawDeadline(context, area, to, verdict) {
  if (!verdict || !Number.isFinite(verdict.deadline) || view.byLine) return null;
  const x = to.x(xOfTime(verdict.deadline));
  upright(context, area, x, colors.timer, 2, [2, 2]);
  return {x, text: 'its deadline', color: colors.timer, boxed: true};
}

// The lines that depart after the first, which may follow from it: faint uprights, or short ones at
// the bottom if many are seen. Their flags, if they are few.
function drawDeparted(context, area, to) {
  const seen = [...trace.departed].filter(([at]) => at !== trace.verdictAt && isSeen(view.x[at]));
  if (!isShown(OTHERS)) return [];
  const isMany = seen.length > MANY_DEPARTURES, tall = isMany ? TICK : area.h, flags = [];
  let before = -9;
  for (const [at, rules] of seen) {
    const x = to.x(view.x[at]);
    if (x - before < 1) continue;
    before = x;
    const part = {y: area.y + area.h - tall, h: tall};
    upright(context, part, Math.round(x) + 0.5, colors.faint, 1.3, isMany ? [] : DASHES.departed);
    const names = [...new Set(rules.map(it => it.rule))].join(' ');
    if (!isMany) flags.push({x, text: names, color: colors.faint});
  }
  return flags;
}

// Flags in rows at the top; one that finds no place is left out.
function drawFlags(context, area, flags) {
  const rows = area.w < 480 ? [[], []] : [[], [], [], []];
  context.font = FONT;
  for (const flag of flags) {
    if (flag.x < area.x - 1 || flag.x > area.x + area.w + 1) continue;
    const width = context.measureText(flag.text).width + 8;
    const isAtEnd = flag.x + width + 2 > area.x + area.w;
    const left = Math.max(area.x, isAtEnd ? flag.x - width - 2 : flag.x + 2);
    const row = rows.findIndex(taken => taken.every(([a, b]) => left + width < a || left > b));
    if (row < 0) continue;
    rows[row].push([left, left + width]);
    drawFlag(context, flag, left, area.y + 2 + row * 18, width);
  }
}

function drawFlag(context, flag, left, top, width) {
  context.globalAlpha = flag.full ? 1 : 0.85;
  context.fillStyle = flag.full ? flag.color : colors.paper;
  context.fillRect(left, top, width, 16);
  context.globalAlpha = 1;
  if (flag.boxed) stroked(context, flag.color, 1, [], () =>
    context.rect(left + 0.5, top + 0.5, width - 1, 15));
  words(context, flag.text, left + 4, top + 8.5, flag.full ? colors.paper : flag.color);
}
