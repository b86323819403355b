// Packets over time: a lane for each packet number space, each with numbers of its own, and below
// them what held the sender back, and how long the loss detection timer has to run.

const TIMER_LANE = 56;
const LEAST_LANE = 26;
const LANE_GAP = 8;
const lanes = [], laneBySpace = [];
const FATES = {
  acked: 'acknowledged', lost: 'declared lost', open: 'no ack', gone: 'gone with its keys',
};
const LARGEST = 'largest acknowledged', BARE = 'not ack-eliciting', SILENCE = 'silence';
const LEAVES = {[PROBE]: 'probe', [RECOVERY]: 'on entry to recovery'};
const BASES = {lossDelay: 'loss delay', timeout: 'PTO (no backoff)'};
let shownPackets = [], timerLane = null, heldLane = null, isDense = false, packetRadius = 3.6;

// Whether a packet, or the time until it was ended, is in the view. A packet for which no
// acknowledgment is awaited, and none came, has no such time.
function isPacketSeen(packet) {
  const x = xOfPacket(packet);
  if (x > view.to) return false;
  if (x >= view.from) return true;
  const {how, end} = trace.packets;
  return how[packet] === 'open' || (how[packet] !== 'bare' && xOf(end[packet]) >= view.from);
}

function lookForPackets() {
  const {at, space} = trace.packets, end = firstNotBelow(at, lastPlaceAt(view.to) + 1);
  shownPackets = [];
  for (let p = 0; p < end; p++) if (shownSpaces[space[p]] && isPacketSeen(p)) shownPackets.push(p);
  isDense = shownPackets.length > 1500;
  packetRadius = shownPackets.length > 4000 ? 1.2 : shownPackets.length > 500 ? 2.3 : 3.6;
}

// Divides the height among the spaces that are seen: most of it to the one with most packets.
function layLanes(height) {
  const counts = [0, 0, 0], {space, number} = trace.packets;
  const least = [Infinity, Infinity, Infinity], most = [-Infinity, -Infinity, -Infinity];
  for (const p of shownPackets) {
    const s = space[p];
    counts[s]++;
    least[s] = Math.min(least[s], number[p]);
    most[s] = Math.max(most[s], number[p]);
  }
  const seen = [0, 1, 2].filter(s => counts[s]);
  const hasTimer = trace.state.timer.some(code => code !== NO_SPACE);
  const below = (hasTimer ? TIMER_LANE + LANE_GAP : 0) + HELD_LANE + LANE_GAP;
  const room = height - below - LANE_GAP * (seen.length - 1) - 22;
  const wanted = counts.map(n => n && Math.sqrt(n) + 1), sum = wanted[0] + wanted[1] + wanted[2];
  lanes.length = laneBySpace.length = 0;
  let top = 22;
  for (const s of seen) {
    const small = seen.length > 1 ? Math.min(LEAST_LANE, room / seen.length) : 0;
    const tall = small + (room - small * seen.length) * wanted[s] / sum;
    const pad = Math.max(0.7, (most[s] - least[s]) * 0.05);
    laneBySpace[s] = {space: s, top, tall, low: least[s] - pad, high: most[s] + pad};
    lanes.push(laneBySpace[s]);
    top += tall + LANE_GAP;
  }
  heldLane = {top: height - below + LANE_GAP, tall: HELD_LANE};
  timerLane = hasTimer ? {top: height - TIMER_LANE, tall: TIMER_LANE - 4, ...timerRange()} : null;
}

// How long the timer has to run in the view, in milliseconds, but for the few longest; below 0
// where it is late.
function timerRange() {
  const {deadline} = trace.state, {time, scale, limit, count} = trace, longs = [];
  const first = Math.max(0, placeAt(view.from) - 1);
  const last = Math.min(limit, count - 1, placeAt(view.to) + 1);
  const step = Math.ceil((last - first + 1) / 5000);
  let low = 0;
  for (let i = first; i <= last; i++) {
    const long = (deadline[i] - time[i]) / scale;
    if (i % step === 0 && i < limit && long > 0) longs.push(long);
    if (i && hasTime(i)) low = Math.min(low, (deadline[i - 1] - time[i]) / scale || 0);
  }
  longs.sort((a, b) => a - b);
  const usual = longs[Math.floor(longs.length * 0.9)] || 1;
  const timeouts = lines.timer.timeout, base = timeouts[Math.max(first, last - 1)] || 0;
  const high = Math.max(Math.min(longs[longs.length - 1] || 1, usual * 3), base);
  return {low: low < high * -0.02 ? low * 1.1 : -high * 0.06, high: high * 1.1};
}

const inLane = (area, lane, value) =>
  area.y + lane.top + lane.tall * (1 - (value - lane.low) / (lane.high - lane.low));
const laneOf = space => laneBySpace[space];
function yOfPacket(area, packet) {
  return inLane(area, laneOf(trace.packets.space[packet]), trace.packets.number[packet]);
}

// The ticks of all lanes, as parts of the height, 1 at the top.
function laneTicks(height) {
  const ticks = [], at = (lane, value) => 1 - inLane({y: 0}, lane, value) / height;
  for (const lane of lanes) {
    const step = Math.max(1, niceStep((lane.high - lane.low) / Math.max(1, lane.tall / 34)));
    for (let n = Math.ceil(lane.low / step) * step; n <= lane.high; n += step) {
      const number = trace.packets.least[lane.space] + BigInt(Math.round(n));
      if (number >= 0n) ticks.push({v: at(lane, n), label: grouped(number)});
    }
  }
  if (timerLane) {
    const {low, high} = timerLane, step = niceStep((high - low) / 3);
    for (let n = Math.ceil(low / step) * step; n <= high; n += step)
      ticks.push({v: at(timerLane, n), label: `${tickOf(n)} ms`});
  }
  return ticks;
}

// The ticks of an axis, a few even if it is short.
function axisTicks([low, high], tall, unit) {
  const step = niceStep((high - low) / Math.max(5, tall / 30)), ticks = [];
  for (let n = Math.ceil(low / step); n * step <= high; n++)
    ticks.push({v: n * step, label: `${tickOf(n * step)} ${unit}`});
  return ticks;
}

function niceStep(least) {
  const power = 10 ** Math.floor(Math.log10(least || 1));
  return [1, 2, 5, 10].map(by => by * power).find(step => step >= least * 0.999) || 1;
}

function updatePackets() {
  lookForPackets();
  layLanes(charts.packets.getArea().h);
  charts.packets.updateOptions({dateWindow: [view.from, view.to]});
}

function drawPackets(event) {
  const context = event.drawingContext, area = event.plotArea, to = scaleOf(area, [0, 1]);
  context.save();
  for (const lane of lanes) drawLane(context, area, lane);
  if (isShown(LARGEST)) for (const lane of lanes) drawGreatest(context, area, to, lane.space);
  const drawn = thinned(area, to);
  for (const isJudged of [true, false]) for (const {space} of lanes) {
    const packets = drawn.filter(p => trace.packets.space[p] === space);
    const sent = packets.filter(p => trace.packets.at[p] < trace.limit === isJudged);
    drawFates(context, area, to, packets, space, isJudged);
    drawGlyphs(context, area, to, sent, space, isJudged);
  }
  drawLeaves(context, area, to);
  if (isShown(FATES.lost)) drawLosses(context, area, to);
  if (heldLane) drawHeld(context, area, to);
  if (timerLane) drawTimer(context, area, to);
  drawSelectedPacket(context, area, to);
  drawOver(context, area, true);
  drawSilences(context, area, to);
  drawNotJudged(context, area, to);
  context.restore();
}

function drawLane(context, area, lane) {
  const bottom = Math.round(area.y + lane.top + lane.tall) + 0.5;
  stroked(context, colors.line, 1, [], () => {
    context.moveTo(area.x, bottom);
    context.lineTo(area.x + area.w, bottom);
  });
  const name = SPACES[lane.space], y = area.y + lane.top + 2;
  words(context, name, area.x + 4, y, colors[name], 'left', 'top', 'bold ' + FONT);
}

// The greatest number that was acknowledged so far, as a step, from one lane's bottom to its top.
function drawGreatest(context, area, to, space) {
  const gone = trace.marks.find(mark => mark.of === 'discard' && mark.space === space);
  const until = to.x(xOf(Math.min(gone ? gone.at : trace.limit, trace.count - 1)));
  const steps = stepsOf(space, to, laneOf(space)), last = steps[steps.length - 1];
  if (!last) return;
  const end = Math.max(last.x, Math.min(area.x + area.w, until));
  stroked(context, colors[SPACES[space]], 1.4, [], () => {
    let y = inLane(area, laneOf(space), Math.max(steps[0].number, laneOf(space).low));
    context.moveTo(steps[0].x, y);
    for (const {x, number} of steps) {
      context.lineTo(x, y);
      y = inLane(area, laneOf(space), Math.max(number, laneOf(space).low));
      context.lineTo(x, y);
    }
    context.lineTo(end, y);
  }, 0.55);
}

// Where the greatest acknowledged number rises, and to what; of the rises in half a pixel the last.
function stepsOf(space, to, lane) {
  const {at, number: numbers} = trace.acks, steps = [];
  const limit = Math.min(trace.limit, lastPlaceAt(view.to) + 2);
  let most = -1;
  for (let k = 0; k < at.length && at[k] < limit; k++) {
    const number = Math.min(numbers[k], lane.high);
    if (trace.space[at[k]] !== space || number <= most) continue;
    most = number;
    const x = to.x(view.x[at[k]]), before = steps[steps.length - 1];
    if (steps.length > 1 && x - before.x < 0.5) before.number = number;
    else steps.push({x, number});
  }
  return steps;
}

// Of packets at one point one is drawn, but each that was lost.
function thinned(area, to) {
  const free = [0, 1, 2].map(() => cells(area, isDense ? 2 : 0.5));
  const {space, lost, x} = trace.packets;
  return shownPackets.filter(p => x[p] < view.from || lost[p] === lost[p] ||
    free[space[p]](to.x(x[p]), yOfPacket(area, p)));
}

// From sent to what became of each packet; grey from where lines were not judged.
function drawFates(context, area, to, packets, space, isJudged) {
  const tone = toneOfSpace(space, isJudged), {how: fate, end: ends, at} = trace.packets;
  const forms = {
    acked: [tone, [], isDense ? 0.22 : 0.45], gone: [tone, [1, 3], 0.6], open: [tone, [1, 4], 0.75],
    lost: [isJudged ? colors.lost : colors.soft, [3, 3], 0.9],
  };
  const limit = trace.limit < trace.count ? to.x(view.x[trace.limit]) : Infinity;
  const by = {acked: [], lost: [], gone: [], open: [], bare: []};
  for (const p of packets) if (!isJudged || at[p] < trace.limit) by[fate[p]].push(p);
  for (const how of Object.keys(forms).filter(it => isShown(FATES[it]))) {
    const [color, dashes, alpha] = forms[how], isOpen = how === 'open';
    stroked(context, color, 1, isDense && !isOpen ? [] : dashes, () => {
      for (const p of by[how]) {
        const y = yOfPacket(area, p), sent = Math.max(area.x - 9, to.x(xOfPacket(p)));
        const end = Math.min(area.x + area.w + 9, to.x(xOf(isOpen ? trace.count - 1 : ends[p])));
        const from = isJudged ? sent : Math.max(sent, limit);
        const until = isJudged ? Math.min(end, limit) : end;
        if (until <= from) continue;
        // The dots of neighbours stand above each other.
        context.moveTo(isOpen ? Math.ceil(from / 5) * 5 : from, y);
        context.lineTo(until, y);
      }
    }, alpha);
  }
  if (!isDense && isShown(FATES.acked)) drawAcknowledged(context, area, to, by.acked, tone, isJudged);
}

// A short upright where a packet was acknowledged.
function drawAcknowledged(context, area, to, packets, tone, isJudged) {
  const {end} = trace.packets, r = packetRadius * 1.2;
  stroked(context, tone, 1.6, [], () => {
    for (const p of packets) {
      if (end[p] < trace.limit !== isJudged) continue;
      const x = to.x(xOf(end[p])), y = yOfPacket(area, p);
      context.moveTo(x, y - r);
      context.lineTo(x, y + r);
    }
  });
}

// The packets themselves: filled where they are ack-eliciting, and else hollow.
function drawGlyphs(context, area, to, packets, space, isJudged) {
  const tone = toneOfSpace(space, isJudged), r = packetRadius;
  for (const isFilled of isShown(BARE) ? [false, true] : [true]) {
    context.beginPath();
    for (const p of packets) {
      if (!!(trace.packets.flags[p] & ELICITING) !== isFilled || xOfPacket(p) < view.from) continue;
      const x = to.x(xOfPacket(p)), y = yOfPacket(area, p);
      if (r < 2) context.rect(x - 1, y - 1, 2, 2);
      else glyph(context, space, x, y, r);
    }
    context.globalAlpha = isJudged ? 1 : 0.6;
    context.fillStyle = isFilled ? tone : colors.paper;
    context.fill();
    context.strokeStyle = tone;
    context.lineWidth = 1.2;
    if (r >= 2) context.stroke();
    context.globalAlpha = 1;
  }
}

// A ring about a probe, a box about the packet that an entry into recovery allows.
function drawLeaves(context, area, to) {
  const {flags, at} = trace.packets, r = packetRadius + 3;
  const asked = [PROBE, RECOVERY].filter(it => isShown(LEAVES[it])).reduce((a, b) => a | b, 0);
  const marked = shownPackets.filter(p => flags[p] & asked && xOfPacket(p) >= view.from);
  for (const isJudged of [true, false])
    stroked(context, isJudged ? colors.timer : colors.soft, 1.6, [], () => {
      for (const p of marked) {
        if (at[p] < trace.limit !== isJudged) continue;
        const x = to.x(xOfPacket(p)), y = yOfPacket(area, p);
        if (flags[p] & PROBE) {
          context.moveTo(x + r, y);
          context.arc(x, y, r, 0, 2 * Math.PI);
        } else context.rect(x - r, y - r, 2 * r, 2 * r);
      }
    });
}

// A cross where a packet was declared lost.
function drawLosses(context, area, to) {
  const apart = cells(area, isDense ? 4 : 1), {lost} = trace.packets;
  const declared = shownPackets.filter(p => lost[p] < trace.count);
  for (const isJudged of [true, false])
    stroked(context, isJudged ? colors.lost : colors.soft, 2, [], () => {
      for (const p of declared) {
        if (lost[p] < trace.limit !== isJudged) continue;
        const x = to.x(view.x[lost[p]]), y = yOfPacket(area, p);
        if (x < area.x - 5 || x > area.x + area.w + 5 || !apart(x, y)) continue;
        cross(context, x, y, Math.max(3.2, packetRadius));
      }
    });
}

// How long the timer has to run: a fall from each line that sets it to the next, and to 0 where it
// fires. Below 0 it is late.
function drawTimer(context, area, to) {
  const {deadline} = trace.state, {time} = trace, zero = inLane(area, timerLane, 0);
  const height = timerLane.tall / (timerLane.high - timerLane.low) / trace.scale;
  const y = (from, place) => zero - (deadline[from] - time[place]) * height;
  context.save();
  context.beginPath();
  context.rect(area.x, area.y + timerLane.top, area.w, area.h - timerLane.top);
  context.clip();
  stroked(context, colors.soft, 1, [], () => {
    context.moveTo(area.x, zero);
    context.lineTo(area.x + area.w, zero);
  });
  if (isShown(TIMED)) for (const isLoss of [false, true]) drawDeadlines(context, area, to, y, isLoss);
  drawBases(context, area, to);
  context.restore();
  drawFired(context, area, to, y);
  const isLate = -timerLane.low > timerLane.high;
  const top = area.y + timerLane.top + (isLate ? timerLane.tall - 14 : 1);
  const text = 'until the timer fires (ms)';
  context.font = FONT;
  backed(context, area.x + 2, top - 1, context.measureText(text).width + 4, 14);
  words(context, text, area.x + 4, top, colors.timer, 'left', 'top');
}

// The loss delay and the probe timeout without backoff, from which deadlines are made.
function drawBases(context, area, to) {
  const rows = rowsOf(lines.timer, area.w);
  [['lossDelay', colors.lost], ['timeout', colors.timer]].forEach(([name, color], k) => {
    if (!isShown(BASES[name])) return;
    stroked(context, color, 1.7, DASHES[name], () => {
      let height = NaN;
      for (const row of rows) {
        const x = Math.max(area.x, to.x(row[0]));
        if (height === height) context.lineTo(x, height);
        if (row[k + 1] === null) continue;
        const isFirst = height !== height;
        height = inLane(area, timerLane, row[k + 1]);
        if (isFirst) context.moveTo(x, height);
        else context.lineTo(x, height);
      }
    });
  });
}

// Of lines in one column of pixels one is drawn for each height.
function drawDeadlines(context, area, to, y, isLoss) {
  const {timer} = trace.state, free = cells(area, 1);
  const last = Math.min(trace.limit, trace.count, placeAt(view.to) + 1);
  stroked(context, colors.timer, 1.3, isLoss ? [2, 2] : [], () => {
    for (let i = Math.max(0, placeAt(view.from) - 1); i < last; i++) {
      if (timer[i] === NO_SPACE || timer[i] >= OF_LOSS !== isLoss) continue;
      const isFollowed = i + 1 < trace.count && hasTime(i + 1);
      const next = isFollowed ? i + 1 : i, x = to.x(view.x[i]), top = y(i, i);
      if (to.x(view.x[next]) - x < 1) {
        if (!free(x, top)) continue;
        context.moveTo(x, top);
        context.lineTo(x + 1, top);
      } else {
        context.moveTo(x, top);
        context.lineTo(to.x(view.x[next]), y(i, next));
      }
    }
  });
}

// Where a timer fired: a triangle, hollow for one that looks for losses.
function drawFired(context, area, to, y) {
  const free = cells(area, 2);
  for (const mark of trace.marks) {
    if ((mark.of !== 'pto' && mark.of !== 'loss') || !isSeen(view.x[mark.at]) ||
      !isShown(MARKS[mark.of])) continue;
    const isJudged = mark.at < trace.limit, x = to.x(view.x[mark.at]);
    const hadDeadline = mark.at > 0 && mark.at <= trace.limit;
    const at = hadDeadline ? y(mark.at - 1, mark.at) : inLane(area, timerLane, 0);
    const middle = at === at ? at : inLane(area, timerLane, 0);
    if (!free(x, middle)) continue;
    context.beginPath();
    triangle(context, x, middle, 5);
    context.fillStyle = mark.of === 'loss' ? colors.paper : isJudged ? colors.timer : colors.soft;
    context.fill();
    context.strokeStyle = isJudged ? colors.timer : colors.soft;
    context.lineWidth = 1.6;
    context.stroke();
  }
}

function drawSelectedPacket(context, area, to) {
  const packet = view.selected >= 0 ? trace.packets.of[view.selected] : -1;
  if (packet < 0 || !laneOf(trace.packets.space[packet])) return;
  const x = to.x(xOfPacket(packet)), y = yOfPacket(area, packet);
  stroked(context, colors.ink, 2, [], () => context.arc(x, y, 8, 0, 2 * Math.PI));
}

// The silences that are seen, each with how long it is and what is in flight.
function drawSilences(context, area, to) {
  if (view.byLine || !heldLane || !isShown(SILENCE)) return;
  const bottom = area.y + heldLane.top - LANE_GAP - 6;
  let drawn = 0;
  for (const it of trace.silences) {
    const left = Math.max(area.x, to.x(view.x[it.from]));
    const right = Math.min(area.x + area.w, to.x(view.x[it.at]));
    const over = it.over / trace.scale * area.w / (view.to - view.from);
    if (right - left < 24 || over < 3 || drawn > 20) continue;
    drawn++;
    drawSilence(context, it, left, right, bottom);
  }
}

function drawSilence(context, silence, left, right, y) {
  stroked(context, colors.ink, 1.3, [], () => {
    context.moveTo(left + 2, y);
    context.lineTo(right - 2, y);
    for (const [x, by] of [[left + 2, 6], [right - 2, -6]]) {
      context.moveTo(x + by, y - 4);
      context.lineTo(x, y);
      context.lineTo(x + by, y + 4);
    }
  });
  context.font = FONT;
  const [long, over] = [silence.long, silence.over].map(it => milliseconds(Math.round(it)));
  const flying = silence.flying ? `${grouped(silence.flying)} B in flight` : 'nothing in flight';
  const said = [`${long} without an event, ${flying}, ${over} past the deadline`,
    `${long} silent, ${flying}`, `${long} silent`]
    .find(it => context.measureText(it).width < right - left - 8);
  if (!said) return;
  const width = context.measureText(said).width + 6, middle = (left + right) / 2;
  backed(context, middle - width / 2, y - 20, width, 15);
  words(context, said, middle, y - 5, colors.ink, 'center', 'bottom');
}

function drawNotJudged(context, area, to) {
  if (trace.limit < trace.count && heldLane) {
    const x = Math.max(area.x, to.x(view.x[trace.limit]));
    const bottom = area.y + heldLane.top - LANE_GAP - 26;
    if (area.x + area.w - x > 70)
      words(context, 'not judged', area.x + area.w - 5, bottom, colors.soft, 'right', 'bottom',
        'italic ' + FONT);
  }
  if (!shownPackets.length)
    words(context, 'no packet in this span', area.x + area.w / 2, area.y + area.h / 3, colors.soft,
      'center');
}
