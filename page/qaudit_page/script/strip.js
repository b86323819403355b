// The whole run above the diagrams: how many packets had been sent, and what happened when. On it
// lies the span that the diagrams show: it can be dragged, and so can its ends.

const GRIP = 10;
const STEPS = 1400;
let stripDrawn = '';

// The strip has its ends where the diagrams have theirs.
function stripArea() {
  const {x, w} = charts.packets.getArea();
  return {x, y: 0, w, h: byId('strip').clientHeight};
}

const scaleOfStrip = area => x => area.x + (x - view.low) / (view.high - view.low) * area.w;

// Moves the span, and draws the run where its size, its axis or its colours are other ones.
function updateStrip() {
  const area = stripArea(), drawn = [area.x, area.w, area.h, view.byLine, colors.paper].join();
  if (drawn !== stripDrawn) drawStrip(area);
  stripDrawn = drawn;
  const x = scaleOfStrip(area), left = x(view.from), width = Math.max(3, x(view.to) - left);
  Object.assign(byId('span').style, {left: `${left}px`, width: `${width}px`});
}

function drawStrip(area) {
  const canvas = byId('strip').querySelector('canvas'), ratio = devicePixelRatio || 1;
  Object.assign(canvas, {width: byId('strip').clientWidth * ratio, height: area.h * ratio});
  const context = canvas.getContext('2d'), x = scaleOfStrip(area);
  context.scale(ratio, ratio);
  if (trace.limit < trace.count) {
    const left = x(view.x[trace.limit]);
    hatched(context, left, 0, area.x + area.w - left, area.h, area.x);
  }
  drawProgress(context, area, x);
  drawHappened(context, area, x);
  for (const at of [trace.verdictAt, trace.endAt])
    if (at >= 0) upright(context, area, x(view.x[at]), colors.refused, 2.5, []);
}

// How many packets had been sent.
function drawProgress(context, area, x) {
  const {count} = trace.packets, step = Math.max(1, Math.floor(count / STEPS));
  const bottom = area.h - 1, y = sent => bottom - sent / (count || 1) * (area.h - 12);
  context.beginPath();
  context.moveTo(area.x, bottom);
  for (let p = 0; p < count; p += step) {
    const left = Math.max(area.x, x(xOfPacket(p)));
    context.lineTo(left, y(p));
    context.lineTo(left, y(p + 1));
  }
  context.lineTo(area.x + area.w, y(count));
  context.strokeStyle = context.fillStyle = colors.app;
  context.lineWidth = 1.2;
  context.stroke();
  context.lineTo(area.x + area.w, bottom);
  context.globalAlpha = 0.13;
  context.fill();
  context.globalAlpha = 1;
}

// Ticks: violations at the top, losses and timers at the bottom. Bars: silences past a deadline.
function drawHappened(context, area, x) {
  const {lost} = trace.packets, {marks, departed, silences} = trace;
  const losses = [...lost].filter(at => at >= 0 && at < trace.count);
  const fired = marks.filter(it => it.of === 'pto' || it.of === 'loss').map(it => it.at);
  const low = {y: area.h - 7, h: 7}, high = {y: 0, h: 8};
  for (const [places, part, color] of [[losses, low, colors.lost], [fired, low, colors.timer],
    [departed.keys(), high, colors.refused]])
    for (const left of new Set([...places].map(at => Math.round(x(view.x[at])))))
      upright(context, part, left + 0.5, color, 1, []);
  context.fillStyle = colors.ink;
  for (const {from, at} of view.byLine ? [] : silences) {
    const left = x(view.x[from]), wide = x(view.x[at]) - left;
    if (wide >= 3) context.fillRect(left, area.h - 3, wide, 3);
  }
}

// What a pointer takes hold of at an x: an end of the span, the span, or room for a new one.
function gripAt(x, near) {
  const {from, to, low, high} = view, isInside = x > from && x < to;
  const isNarrow = to - from < 4 * near, ends = [Math.abs(x - from), Math.abs(x - to)];
  const grip = {begin: x, near, from, to, isMoved: false};
  if (Math.min(...ends) < near && !(isNarrow && isInside))
    return {...grip, fixed: ends[0] < ends[1] ? to : from};
  const isWhole = from <= low && to >= high;
  return isInside && !isWhole ? {...grip, pans: true} : {...grip, fixed: x};
}

function dragStrip(grip, x) {
  if (Math.abs(x - grip.begin) > grip.near / 3) grip.isMoved = true;
  if (!grip.isMoved) return;
  const by = x - grip.begin;
  if (grip.pans) show(grip.from + by, grip.to + by);
  else show(Math.min(grip.fixed, x), Math.max(grip.fixed, x));
}

// A click shows what is about it.
function endGrip(grip) {
  const half = (grip.to - grip.from) / 2;
  if (!grip.isMoved) show(grip.begin - half, grip.begin + half);
}

function addStrip() {
  const box = byId('strip');
  let grip = null;
  const near = () => GRIP / stripArea().w * (view.high - view.low);
  const at = event => {
    const area = stripArea(), x = event.clientX - box.getBoundingClientRect().left - area.x;
    return view.low + Math.max(0, Math.min(area.w, x)) / area.w * (view.high - view.low);
  };
  box.setAttribute('aria-label', 'The whole run, with the span that the diagrams show');
  box.addEventListener('pointerdown', event => {
    if (event.button) return;
    box.setPointerCapture(event.pointerId);
    grip = gripAt(at(event), near());
  });
  box.addEventListener('pointermove', event => grip && dragStrip(grip, at(event)));
  box.addEventListener('pointerup', () => {
    if (grip) endGrip(grip);
    grip = null;
  });
  box.addEventListener('pointercancel', () => { grip = null; });
  box.addEventListener('dblclick', showAll);
}
