// The congestion window and the round-trip time, as the rows of the machine have them.

let windowRange = [0, 1], rttRange = [0, 1], roomRange = [0, 1], roomRows = [];
let roomTicks = [];
// If the window is passed, so many times the excess is seen of what is left of it.
const ROOM_TIMES = 2;
const lines = {window: {}, rtt: {}, headroom: {}, timer: {}};
// What the key calls the lines of the diagrams and the reported values.
const NAMES = {
  window: 'congestion window', flight: 'bytes in flight', ssthresh: 'ssthresh',
  headroom: 'headroom', smoothed: 'smoothed', latest: 'latest', least: 'min',
};
const REPORTED = {
  window: 'reported window', ssthresh: 'reported ssthresh',
  bytes_in_flight: 'reported in flight', smoothed_rtt: 'reported smoothed',
  latest_rtt: 'reported latest', min_rtt: 'reported min',
};

// The series of both diagrams, in bytes and in milliseconds.
function setLines() {
  const {state, scale, firstSample} = trace;
  const inTime = column => sampled(firstSample, i => column[i] / scale);
  lines.window = {window: state.window, ssthresh: state.ssthresh, flight: state.in_flight};
  lines.headroom = {headroom: state.window.map((bytes, i) => bytes - state.in_flight[i])};
  lines.rtt = {
    smoothed: inTime(state.smoothed_rtt), latest: inTime(state.latest_rtt),
    least: inTime(state.min_rtt),
  };
  lines.timer = {lossDelay: sampled(firstSample, lossDelay), timeout: sampled(firstSample, timeout)};
}

// A value of each line from the first sample of the round-trip time on.
function sampled(firstSample, value) {
  const column = new Float64Array(trace.count).fill(NaN);
  for (let i = firstSample; i < trace.count; i++) column[i] = value(i);
  return column;
}

// The loss delay (RFC 9002, 6.1.2) by the state of a line, in milliseconds.
function lossDelay(i) {
  const {latest_rtt: latest, smoothed_rtt: smoothed} = trace.state;
  return Math.max(1, Math.ceil(9 / 8 * Math.max(latest[i], smoothed[i])) / trace.scale);
}

// The probe timeout (6.2.1), for application data and before it is doubled, in milliseconds.
function timeout(i) {
  const {smoothed_rtt: smoothed, rttvar} = trace.state, {scale, max_ack_delay: delay} = trace;
  return (smoothed[i] + Math.max(4 * rttvar[i], scale) + delay) / scale;
}

// How many pixels wide a column is of which only ends and extremes are drawn.
const COLUMN = 2;

// The places of the view, a few for each pixel: all of them, or of many the ends and extremes of
// each column.
function picked(columns, pixels) {
  const low = Math.max(0, placeAt(view.from) - 1);
  const high = Math.min(trace.limit, trace.count, placeAt(view.to) + 2) - 1;
  const places = [];
  if (high - low < pixels * 4) {
    for (let i = low; i <= high; i++) places.push(i);
    return places;
  }
  const width = (view.to - view.from) / pixels * COLUMN;
  for (let i = low; i <= high;) {
    const from = Math.floor((view.x[i] - view.from) / width);
    const end = Math.max(view.x[i], view.from + (from + 1) * width);
    i = pickColumn(columns, i, high, end, places);
  }
  return places;
}

function pickColumn(columns, begin, high, end, places) {
  let next = begin + 1;
  while (next <= high && view.x[next] < end) next++;
  const found = [begin, next - 1];
  for (const column of columns) pickExtremes(column, begin, next, found);
  found.sort((a, b) => a - b);
  for (let k = 0; k < found.length; k++) if (found[k] !== found[k - 1]) places.push(found[k]);
  return next;
}

// Adds the places of the least and of the greatest value before an end.
function pickExtremes(column, begin, end, found) {
  let least = begin, most = begin, low = column[begin], high = low;
  for (let i = begin + 1; i < end; i++) {
    const value = column[i];
    if (value < low) {
      least = i;
      low = value;
    }
    if (value > high) {
      most = i;
      high = value;
    }
  }
  found.push(least, most);
}

const orNull = value => value === value ? value : null;

// The rows that dygraphs draws: x, each series, and a place for marks. The state holds until the
// line at which the machine stops.
function rowsOf(series, pixels) {
  const columns = Object.values(series);
  const places = picked(columns, pixels);
  // A value is there where it changes, and at the end: a line with a dash for each row has none.
  const isNew = (column, k) =>
    !k || k === places.length - 1 || column[places[k]] !== column[places[k - 1]];
  const rows = places.map((i, k) =>
    [view.x[i], ...columns.map(it => isNew(it, k) ? orNull(it[i]) : null), 0]);
  const last = Math.min(trace.limit, trace.count) - 1, end = trace.stopAt;
  if (rows.length && end > last && view.to > view.x[last])
    rows.push([view.x[end], ...columns.map(it => orNull(it[last])), 0]);
  if (!rows.length)
    for (const x of [view.low, view.high]) rows.push([x, ...columns.map(() => null), 0]);
  return withoutHidden(rows, Object.keys(series));
}

// Rows without the series that the key hides.
function withoutHidden(rows, names) {
  names.forEach((name, k) => {
    if (!isShown(NAMES[name])) for (const row of rows) row[k + 1] = null;
  });
  return rows;
}

// The least and the greatest value of the rows that are seen. A row before the view holds into it;
// one after it is there only for the line that leads to it.
function extremesOf(rows) {
  let low = Infinity, high = -Infinity;
  for (const row of rows) for (let k = 1; k < row.length - 1; k++)
    if (row[k] !== null && row[0] <= view.to) {
      low = Math.min(low, row[k]);
      high = Math.max(high, row[k]);
    }
  return [low, high];
}

// The first report in the view, and the first after it.
function reportsSeen() {
  const {at} = trace.reports;
  return [firstNotBelow(at, placeAt(view.from)), firstNotBelow(at, lastPlaceAt(view.to) + 1)];
}

// The same, with what is reported and what is refused.
function extremes(rows, reported, chart) {
  let [low, high] = extremesOf(rows);
  if (high < 0) [low, high] = [0, 0];
  const limit = high ? high * 4 : Infinity, [first, end] = reportsSeen();
  for (let k = first; k < end; k++) for (const column of reported) {
    const value = column[k];
    if (value <= limit) high = Math.max(high, value);
    if (value <= limit) low = Math.min(low, value);
  }
  const most = high * 8;
  for (const it of culpritsSeen(chart)) if (it.shown < most) high = Math.max(high, it.shown);
  return [low, high];
}

// From 0 for the whole run; for a part of it what is seen there, unless that comes near 0.
function padded([low, high]) {
  const isPart = view.to - view.from < (view.high - view.low) * 0.98;
  if (!isPart || !(low > high * 0.25)) return [0, (high || 1) * 1.2];
  const room = (high - low || high * 0.1) * 0.25;
  return [low - room, high + room * 1.6];
}

// Room for half of a label below 0, since the lane of the headroom comes right below.
const HALF_LABEL = 8;
function above([low, high]) {
  const tall = charts.window.getArea().h;
  return [low || -high * HALF_LABEL / (tall - HALF_LABEL), high];
}

const pixelsOf = chart => Math.max(200, charts[chart].getArea().w);

function updateWindow() {
  const rows = rowsOf(lines.window, pixelsOf('window'));
  const reported = ['window', 'bytes_in_flight'].filter(it => isShown(REPORTED[it]));
  windowRange = above(padded(extremes(rows, reported.map(it => trace.reports[it]), 'window')));
  const axes = {y: {valueRange: windowRange}};
  charts.window.updateOptions({file: rows, dateWindow: [view.from, view.to], axes});
}

// What is left of the window. Its lane has 0, and an excess has a good part of it.
function updateHeadroom() {
  roomRows = rowsOf(lines.headroom, pixelsOf('headroom'));
  let [low, high] = extremesOf(roomRows);
  low = Math.min(low, 0, ...roomsSeen().map(it => it.room));
  high = Math.max(high, 0);
  if (low < 0) high = Math.min(high, -low * ROOM_TIMES);
  roomRange = [low * 1.4 - (high || 1) * 0.08, (high || 1) * 1.25];
  roomTicks = [...new Set([low, 0, high])].map(v => ({v, label: `${grouped(Math.round(v))} B`}));
  const axes = {y: {valueRange: roomRange}};
  charts.headroom.updateOptions({file: roomRows, dateWindow: [view.from, view.to], axes});
}

// What would be left with the packets that are seen and have no room.
const roomsSeen = () => trace.culprits.filter(it => it.room < 0 && isSeen(view.x[it.at]));

function drawHeadroomMarks(event) {
  const context = event.drawingContext, area = event.plotArea, to = scaleOf(area, roomRange);
  context.save();
  stroked(context, colors.soft, 1, [], () => {
    context.moveTo(area.x, to.y(0));
    context.lineTo(area.x + area.w, to.y(0));
  });
  drawExcess(context, area, to);
  const free = cells(area, 6);
  for (const {at, room} of roomsSeen()) {
    const x = to.x(view.x[at]), y = Math.min(to.y(room), area.y + area.h - 4);
    const isFirst = at === trace.verdictAt, tone = isFirst ? colors.refused : colors.faint;
    if (free(x, y)) stroked(context, tone, 2, [], () => cross(context, x, y, 3.5));
  }
  drawOver(context, area, null);
  const text = 'headroom: window less in flight (bytes)';
  context.font = FONT;
  backed(context, area.x + 2, area.y + 1, context.measureText(text).width + 4, 14);
  words(context, text, area.x + 4, area.y + 2, colors.flight, 'left', 'top');
  context.restore();
}

// Red from 0 down to what is in flight past the window, at least three pixels of it.
function drawExcess(context, area, to) {
  const zero = to.y(0);
  context.fillStyle = colors.refused;
  let before = 0;
  roomRows.forEach((row, k) => {
    const value = row[1] ?? before, next = roomRows[k + 1];
    before = value;
    if (!(value < 0) || !next) return;
    const left = Math.max(area.x, to.x(row[0])), right = Math.min(area.x + area.w, to.x(next[0]));
    if (right > left) context.fillRect(left, zero, right - left, Math.max(3, to.y(value) - zero));
  });
}

function updateRtt() {
  const rows = rowsOf(lines.rtt, pixelsOf('rtt'));
  const reported = RTTS.filter(it => isShown(REPORTED[it])).map(chartOfReport);
  rttRange = padded(extremes(rows, reported, 'rtt'));
  if (trace.firstSample >= trace.count && trace.judged)
    rttRange = [0, trace.state.smoothed_rtt[trace.limit - 1] / trace.scale * 1.3];
  const axes = {y: {valueRange: rttRange}};
  charts.rtt.updateOptions({file: rows, dateWindow: [view.from, view.to], axes});
}

const RTTS = ['smoothed_rtt', 'latest_rtt', 'min_rtt'];
let rttReported = null;
function rttReports() {
  const inTime = column => column.map(value => value / trace.scale);
  rttReported ||= RTTS.map(it => inTime(trace.reports[it]));
  return rttReported;
}

// The values that the sender reports, as marks; one above the diagram as an arrow.
function drawReported(context, area, range, name, color, shape) {
  if (!isShown(REPORTED[name])) return;
  const column = chartOfReport(name);
  const to = scaleOf(area, range), {at} = trace.reports;
  const free = cells(area, at.length < 300 ? 4 : 12), [first, end] = reportsSeen();
  const unjudged = Math.max(first, Math.min(end, firstNotBelow(at, trace.limit)));
  for (const isJudged of [true, false])
    stroked(context, isJudged ? color : colors.soft, 1.3, [], () => {
      for (let k = isJudged ? first : unjudged; k < (isJudged ? unjudged : end); k++) {
        const x = to.x(view.x[at[k]]), value = column[k];
        if (value !== value) continue;
        const y = Math.max(area.y + 6, to.y(value));
        if (!free(x, y)) continue;
        if (value > range[1]) triangle(context, x, y, 4);
        else shape(context, x, y, 4);
      }
    });
}

// The reported values in the unit of their diagram.
const chartOfReport = name => /rtt/.test(name) ? rttReports()[RTTS.indexOf(name)] : trace.reports[name];

const circle = (context, x, y, r) => {
  context.moveTo(x + r * 0.8, y);
  context.arc(x, y, r * 0.8, 0, 2 * Math.PI);
};

// The values of a diagram that are refused or depart, as many as are seen.
function culpritsSeen(chart) {
  const by = chart === 'rtt' ? trace.scale : 1;
  return trace.culprits.filter(it => it.chart === chart && isSeen(view.x[it.at]))
    .map(({at, value}) => ({at, shown: value / by}));
}

// A cross at each value that is refused or departs: a great one at that of the verdict, and faint
// ones at those after it, which may follow from it.
function drawCulprits(context, area, range, chart) {
  const to = scaleOf(area, range), points = culpritsSeen(chart).map(({at, shown}) =>
    ({at, x: to.x(view.x[at]), y: Math.max(area.y + 9, to.y(shown))}));
  const free = cells(area, points.length > MANY_DEPARTURES ? 10 : 4);
  if (isShown(OTHERS)) stroked(context, colors.faint, 2.2, [], () => {
    for (const {at, x, y} of points)
      if (at !== trace.verdictAt && free(x, y)) cross(context, x, y, 3.5);
  });
  if (isShown(CULPRIT)) for (const {at, x, y} of points) if (at === trace.verdictAt) {
    context.beginPath();
    context.arc(x, y, 8.5, 0, 2 * Math.PI);
    context.fillStyle = colors.paper;
    context.fill();
    stroked(context, colors.refused, 3, [], () => cross(context, x, y, 5.5));
  }
}

function drawWindowMarks(event) {
  const context = event.drawingContext, area = event.plotArea;
  context.save();
  drawReported(context, area, windowRange, 'window', colors.app, diamond);
  drawReported(context, area, windowRange, 'ssthresh', colors.soft, diamond);
  drawReported(context, area, windowRange, 'bytes_in_flight', colors.flight, circle);
  drawOver(context, area, false);
  drawCulprits(context, area, windowRange, 'window');
  context.restore();
}

function drawRttMarks(event) {
  const context = event.drawingContext, area = event.plotArea;
  context.save();
  drawAssumed(context, area);
  drawReported(context, area, rttRange, 'smoothed_rtt', colors.initial, diamond);
  drawReported(context, area, rttRange, 'latest_rtt', colors.latest, circle);
  drawReported(context, area, rttRange, 'min_rtt', colors.least, circle);
  drawOver(context, area, false);
  drawCulprits(context, area, rttRange, 'rtt');
  context.restore();
}

// Before the first sample the round-trip time is assumed, and drawn apart.
function drawAssumed(context, area) {
  const end = Math.min(trace.firstSample, trace.limit, trace.count) - 1;
  if (end < 0 || !trace.judged) return;
  const to = scaleOf(area, rttRange), value = trace.state.smoothed_rtt[end] / trace.scale;
  const from = Math.max(area.x, to.x(view.x[0]));
  const until = Math.min(area.x + area.w, to.x(xOf(end + 1)));
  if (until <= area.x) return;
  const y = Math.max(area.y + 26, to.y(value)), isAbove = to.y(value) < area.y;
  stroked(context, colors.initial, 1.6, [2, 3], () => {
    context.moveTo(from, y);
    context.lineTo(until, y);
  });
  const text = `${isAbove ? '\u2191 ' : ''}assumed ${+value.toPrecision(6)} ms`;
  context.font = FONT;
  if (context.measureText(text).width < until - from + 40)
    words(context, text, from + 3, y + 3, colors.soft, 'left', 'top');
}
