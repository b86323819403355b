// Makes the diagrams and their keys, and begins.

// dygraphs takes this for markup, so no name of a file may be in it.
const nameOfAxis = () => view.byLine ? 'line of the trace' :
  pair ? 'time (ms) by the clock of the first trace' : 'time (ms)';
const tickOf = value => grouped(+value.toPrecision(12));
const tickOfX = value => view.byLine ? tickOf(value) : `${tickOf(value)} ms`;

// As wide as the largest packet number and window, unless that takes a quarter of the page.
function widthOfLabels() {
  const {space, number, least, count} = trace.packets, most = [0, 0, 0];
  for (let p = 0; p < count; p++) most[space[p]] = Math.max(most[space[p]], number[p]);
  const numbers = least.map((n, s) => grouped(n + BigInt(Math.round(most[s]))).length);
  const bytes = trace.state.window.reduce((a, b) => b > a ? b : a, 0);
  const digits = Math.max(...numbers, grouped(Math.round(bytes)).length + 3);
  return Math.max(innerWidth < 600 ? 56 : 74, Math.min(innerWidth / 4, 7 * digits + 8));
}

// The packets are drawn from the columns; dygraphs has the ends of the axis only.
const ends = () => [[view.low, 0], [view.high, 0]];

// What a diagram has until it is drawn for the first time.
const noRows = series => ends().map(([x]) => [x, ...new Array(series).fill(null)]);

function options(more) {
  return {
    legend: 'never', showLabelsOnHighlight: false, highlightCircleSize: 0, stepPlot: true,
    labelsUTC: true, animatedZooms: false, fillAlpha: 0.13, connectSeparatedPoints: true,
    gridLineWidth: 0.5, rightGap: 8, xlabelHeight: 16,
    underlayCallback: drawUnder, interactionModel: {}, dateWindow: [view.from, view.to],
    ...more,
  };
}

const toneOfAxes = () => ({axisLineColor: colors.soft, gridLineColor: colors.line});
const line = (color, strokeWidth, strokePattern = null) => ({color, strokeWidth, strokePattern});
const seriesOfWindow = () => ({
  window: line(colors.app, 2.2), ssthresh: line(colors.soft, 1.4, DASHES.ssthresh),
  flight: {...line(colors.flight, 2), fillGraph: true}, marks: {plotter: drawWindowMarks},
});
const seriesOfHeadroom = () => ({
  headroom: {...line(colors.flight, 1.5), fillGraph: true}, marks: {plotter: drawHeadroomMarks},
});
const seriesOfRtt = () => ({
  smoothed: line(colors.initial, 2.2), latest: line(colors.latest, 1),
  least: line(colors.least, 1.4, DASHES.least), marks: {plotter: drawRttMarks},
});

function makeCharts() {
  const pixelsPerLabel = innerWidth < 600 ? 70 : 100;
  const x = {axisLabelFormatter: tickOfX, axisLabelWidth: 92, pixelsPerLabel};
  const axisLabelWidth = pair ? pair.widthOfLabels() : widthOfLabels();
  const y = {axisLabelWidth, valueRange: [0, 1], pixelsPerLabel: 34};
  const ticker = () => charts.packets ? laneTicks(charts.packets.getArea().h) : [];
  // The legend of dygraphs sets attributes for style, which the policy of the page forbids.
  Dygraph.PLUGINS = Dygraph.PLUGINS.filter(plugin => plugin !== Dygraph.Plugins.Legend);
  charts.packets = new Dygraph(byId('chart-packets'), ends(), options({
    labels: ['x', 'packets'], plotter: drawPackets, ...toneOfAxes(),
    axes: {x, y: {...y, ticker}},
  }));
  const tickerOf = (range, unit) => (a, b, pixels) => axisTicks(range(), pixels, unit);
  charts.window = new Dygraph(byId('chart-window'), noRows(4), options({
    labels: ['x', 'window', 'ssthresh', 'flight', 'marks'], ...toneOfAxes(),
    series: seriesOfWindow(), axes: {x: {...x, drawAxis: false}, y: {...y, ticker: tickerOf(() => windowRange, 'B')}},
  }));
  charts.headroom = new Dygraph(byId('chart-headroom'), noRows(2), options({
    labels: ['x', 'headroom', 'marks'], ...toneOfAxes(), series: seriesOfHeadroom(),
    axes: {x: {...x, drawAxis: false}, y: {...y, ticker: () => roomTicks}},
  }));
  charts.rtt = new Dygraph(byId('chart-rtt'), noRows(4), options({
    labels: ['x', 'smoothed', 'latest', 'least', 'marks'],
    ...toneOfAxes(), series: seriesOfRtt(), axes: {x, y: {...y, ticker: tickerOf(() => rttRange, 'ms')}},
    xlabel: nameOfAxis(),
  }));
  const departed = trace.departed.size ? `, ${grouped(trace.departed.size)} lines with violations` : '';
  const about = `${grouped(trace.packets.count)} packets, ${trace.verdict.kind}${departed}`;
  byId('chart-packets').setAttribute('aria-label', `Packet numbers over time: ${about}`);
}

function recolor() {
  readColors();
  charts.packets.updateOptions(toneOfAxes(), true);
  charts.window.updateOptions({...toneOfAxes(), series: seriesOfWindow()}, true);
  charts.headroom.updateOptions({...toneOfAxes(), series: seriesOfHeadroom()}, true);
  charts.rtt.updateOptions({...toneOfAxes(), series: seriesOfRtt()}, true);
  fillKeys();
  update();
}

// Keys: the shapes of the diagrams with their names.

// An entry has its words and a shape; a click hides what it is of, unless it is always there.
function fillKey(id, entries) {
  byId(id).replaceChildren(...entries.filter(entry => entry[0]).map(keyEntry));
}

function keyEntry([, text, draw, isFixed]) {
  const item = element(isFixed ? 'span' : 'button'), canvas = document.createElement('canvas');
  const ratio = devicePixelRatio || 1;
  Object.assign(canvas, {width: 26 * ratio, height: 16 * ratio});
  const context = canvas.getContext('2d');
  context.scale(ratio, ratio);
  draw(context);
  item.append(canvas, text);
  if (isFixed) return item;
  item.type = 'button';
  item.setAttribute('aria-pressed', String(isShown(text)));
  item.addEventListener('click', () => toggle(text));
  return item;
}

// Hides what an entry of a key is of, or shows it again, and says so. Two keys may have one entry.
function toggle(text) {
  if (!hidden.delete(text)) hidden.add(text);
  for (const item of byId('chart-packets').closest('.beside').querySelectorAll('.key button'))
    if (item.textContent === text) item.setAttribute('aria-pressed', String(isShown(text)));
  byId('said').textContent = `${text}: ${isShown(text) ? 'shown' : 'hidden'}`;
  redraw();
}

function level(context, color, width, dashes, alpha) {
  stroked(context, color, width, dashes, () => {
    context.moveTo(1, 8);
    context.lineTo(25, 8);
  }, alpha);
}
const standingLine = (context, color, width, dashes) =>
  upright(context, {y: 0, h: 16}, 13, color, width, dashes);
const shaped = (context, color, width, shape, r) => stroked(context, color, width, [], () =>
  shape(context, 13, 8, r));

function packetSample(context, space, isFilled, path) {
  context.beginPath();
  glyph(context, space, 13, 8, 4);
  context.fillStyle = colors[SPACES[space]];
  if (isFilled) context.fill();
  context.strokeStyle = colors[SPACES[space]];
  context.stroke();
  if (path) stroked(context, colors.timer, 1.6, [], path);
}

function fillKeys() {
  const {space, flags, count} = trace.packets, used = [2, 1, 0].find(s => space.includes(s)) ?? 2;
  const any = test => { for (let p = 0; p < count; p++) if (test(p)) return true; return false; };
  const ends = how => any(p => trace.packets.how[p] === how), tone = colors[SPACES[used]];
  fillKey('key-packets', [
    [any(p => !(flags[p] & ELICITING)), BARE, c => packetSample(c, used, false)],
    [any(p => flags[p] & PROBE), LEAVES[PROBE], c => packetSample(c, used, true, () =>
      c.arc(13, 8, 7, 0, 2 * Math.PI))],
    [any(p => flags[p] & RECOVERY), LEAVES[RECOVERY], c => packetSample(c, used, true, () =>
      c.rect(6, 1, 14, 14))],
    [ends('acked'), FATES.acked, c => level(c, tone, 1, [], 0.6)],
    [ends('lost'), FATES.lost, c => {
      level(c, colors.lost, 1, [3, 3]);
      stroked(c, colors.lost, 2, [], () => cross(c, 21, 8, 3.5));
    }],
    [ends('open'), FATES.open, c => level(c, tone, 1.3, [1, 4])],
    [ends('gone'), FATES.gone, c => level(c, tone, 1, [1, 3])],
    [trace.acks.at.length, LARGEST, c => stroked(c, tone, 1.4, [], () => {
      c.moveTo(1, 13); c.lineTo(10, 13); c.lineTo(10, 4); c.lineTo(25, 4);
    }, 0.6)],
    [trace.silences.length, SILENCE, c => stroked(c, colors.ink, 1.3, [], () => {
      c.moveTo(6, 4); c.lineTo(2, 8); c.lineTo(24, 8); c.lineTo(20, 4);
    })],
    ...keysOfEvents(), ...keysOfTimer(),
  ]);
  fillKeysOfState();
}

function keysOfEvents() {
  const has = of => trace.marks.some(mark => mark.of === of);
  const isSplit = trace.departed.size > 1;
  return [
    [has('discard') || has('confirmed') || has('keys'), MARKS.discard, c =>
      standingLine(c, colors.soft, 1.3, DASHES.discard)],
    [trace.verdictAt >= 0, isSplit ? 'first violation' : 'line of the verdict', c =>
      standingLine(c, colors.refused, 2.5, []), true],
    [isSplit, OTHERS, c => standingLine(c, colors.faint, 1.3, DASHES.departed)],
    [trace.limit < trace.count, 'not judged', c => hatched(c, 1, 1, 24, 14, 1), true],
  ];
}

const isHeld = code => code === LATE ? trace.held.late.size > 0 : trace.held.after.includes(code);

// The lanes of what held the sender back and of the timer.
function keysOfTimer() {
  const has = of => trace.marks.some(mark => mark.of === of);
  const isSet = trace.state.timer.some(code => code !== NO_SPACE);
  const isSampled = isSet && trace.firstSample < trace.count;
  return [
    ...HELD.map((it, code) => [isHeld(code), it.name, c =>
      heldBlock(c, code, {left: 1, top: 1, wide: 24, tall: 14}, false)]),
    [isSet, TIMED, c => stroked(c, colors.timer, 1.3, [], () => {
      c.moveTo(2, 2); c.lineTo(24, 14);
    })],
    [has('pto'), MARKS.pto, c => { c.beginPath(); triangle(c, 13, 8, 5);
      c.fillStyle = colors.timer; c.fill(); }],
    [has('loss'), MARKS.loss, c => shaped(c, colors.timer, 1.6, triangle, 5)],
    [isSampled, BASES.lossDelay, c => level(c, colors.lost, 1.4, DASHES.lossDelay)],
    [isSampled, BASES.timeout, c => level(c, colors.timer, 1.4, DASHES.timeout)],
  ];
}

function fillKeysOfState() {
  const {reports, culprits, state} = trace;
  const mark = (name, color, shape) => [reports[name].some(value => value === value),
    REPORTED[name], c => shaped(c, color, 1.3, shape, 5)];
  const refused = chart => [culprits.some(it => it.chart === chart), CULPRIT,
    c => shaped(c, colors.refused, 3, cross, 5)];
  fillKey('key-window', [
    refused('window'),
    [true, NAMES.window, c => level(c, colors.app, 2.2, [])],
    [true, NAMES.flight, c => { c.globalAlpha = 0.2; c.fillStyle = colors.flight;
      c.fillRect(1, 8, 24, 8); c.globalAlpha = 1; level(c, colors.flight, 1.5, []); }],
    [state.ssthresh.some(it => it === it), NAMES.ssthresh, c =>
      level(c, colors.soft, 1.4, DASHES.ssthresh)],
    mark('window', colors.app, diamond), mark('bytes_in_flight', colors.flight, circle),
    mark('ssthresh', colors.soft, diamond),
    [state.in_flight.some((it, i) => it > state.window[i]), 'past the window', c => {
      c.fillStyle = colors.refused; c.fillRect(1, 6, 24, 5); }, true],
  ]);
  const isSampled = trace.firstSample < trace.count;
  fillKey('key-rtt', [
    refused('rtt'),
    [isSampled, NAMES.smoothed, c => level(c, colors.initial, 2.2, [])],
    [isSampled, NAMES.latest, c => level(c, colors.latest, 1, [])],
    [isSampled, NAMES.least, c => level(c, colors.least, 1.4, DASHES.least)],
    [trace.firstSample > 0, 'assumed', c => level(c, colors.initial, 1.6, [2, 3]), true],
    mark('smoothed_rtt', colors.initial, diamond), mark('latest_rtt', colors.latest, circle),
    mark('min_rtt', colors.least, circle),
  ]);
}

// What a browser prefers by which the colours change.
const SCHEMES = ['(prefers-color-scheme: dark)', '(forced-colors: active)', '(prefers-contrast: more)'];

// Paper is light: in a dark page what is drawn is turned round there, by page.css.
function noteScheme() {
  const isDark = matchMedia('(prefers-color-scheme: dark)').matches;
  document.documentElement.classList.toggle('dark', isDark);
}

// What is folded is printed too, where it is said against the sender.
function fitToPaper() {
  if (byId('departures')) byId('departures').open = true;
  const share = Math.min(1, 690 / byId('chart-packets').closest('.beside').clientWidth);
  document.documentElement.style.setProperty('--fit', String(share));
}

function begin(started) {
  readColors();
  noteScheme();
  setLines();
  makeCharts();
  addControls();
  fillKeys();
  if (!followAddress()) {
    if (trace.opensAt >= 0) select(trace.opensAt, {...howToOpen(), isNamed: false});
    else {
      fillTable();
      fillPanel();
    }
  }
  update();
  if (trace.verdict.line && trace.verdictAt < 0 && trace.verdict.line <= trace.total)
    tell(`Line ${trace.verdict.line} is not in this page, which has lines ${trace.first} to ` +
      `${trace.first + trace.count - 1} of ${trace.total}.`);
  for (const feature of SCHEMES) matchMedia(feature).addEventListener('change', () => {
    if (matchMedia('print').matches) return;
    noteScheme();
    recolor();
  });
  addEventListener('beforeprint', fitToPaper);
  const seen = {
    ready: performance.now(), took: performance.now() - started,
    frames: () => frames, lastFrame: () => lastFrame, trace, view, lines,
    isDrawnAhead: () => !stepsAhead.length,
    ranges: () => ({rtt: rttRange, window: windowRange}), lanes, heldLane: () => heldLane, cursor: () => cursorAt, heldColumns: () => {
      const area = charts.packets.getArea();
      return [...heldColumns(area, scaleOf(area, [0, 1]))];
    },
    selected: () => view.selected < 0 ? null : trace.first + view.selected,
  };
  if (pair) pair.drawn(RUN, seen);
  else window.qauditPage = seen;
}

// One of two runs says which span is shown first, unless the address names a line.
const howToOpen = () => pair && (pair.isNamed || !trace.zooms) ? {rests: true} : {zooms: true};

// What the other run of a page can ask of this one.
const asked = () => ({
  title: trace.title, widthOfLabels, showSpan, lastPlaceAt, follow: followCursor,
  ends: () => [view.low, view.high],
  widen: (low, high) => Object.assign(view, {low, high, from: low, to: high}),
  mark: isOn => partsOfRun().forEach(it => it.classList.toggle('active', isOn)),
  lineOf: place => trace.first + place,
  hashOf: place => `#${LINKS}=${trace.first + place}`,
  visit: place => {
    select(place);
    byId('run').scrollIntoView();
  },
});

async function start() {
  const started = performance.now();
  const [data, text] = await Promise.all([inflated(`${RUN}data`), inflated(`${RUN}text`)]);
  unpack(JSON.parse(data), text);
  if (!trace.count) {
    tell('The trace has no line.');
    pair?.join(RUN, null);
    return;
  }
  shared('controls').hidden = shared('main').hidden = false;
  setAxis();
  Object.assign(view, {from: view.low, to: view.high});
  if (pair) {
    for (const part of partsOfRun()) part.hidden = false;
    await pair.join(RUN, asked());
  }
  begin(started);
}

start().catch(error => {
  tell(`The diagrams could not be drawn: ${error.message}`);
  console.error(error);
});
