// What held the sender back: a lane below the packets, and in words. What it was after each line is
// in the page; here it is only drawn and told.

const HELD_LANE = 16;
// The codes of the page, and after them that a timer is late.
const [ROOM, WAITS, LIMITED, FULL, OWED_PROBE, OWED_LOSS, LATE] = [0, 1, 2, 3, 4, 5, 6];
const HELD = [
  {name: 'room, nothing sent', tone: 'soft', share: 0.2},
  {name: 'waits for the timer', tone: 'timer', share: 0.5, bars: true},
  {name: 'application limited', tone: 'app', share: 0.5},
  {name: 'window full', tone: 'flight', share: 1},
  {name: 'probe owed', tone: 'timer', share: 1},
  {name: 'loss owed', tone: 'lost', share: 1},
  {name: 'timer late', tone: 'refused', share: 1, bars: true},
];

function unpackHeld(said) {
  const late = new Map(), lines = placesOf(said.line);
  said.late.forEach((amount, k) => late.set(lines[k], amount));
  trace.held = {after: spread(codesOf(said.after), trace.state.rowOf), late, needed: said.needed};
  trace.next = nextTimes();
}

// Of each line the next that has a time, a report too.
function nextTimes() {
  const next = new Int32Array(trace.count).fill(-1);
  for (let i = trace.count - 2; i >= 0; i--) next[i] = hasTime(i + 1) ? i + 1 : next[i + 1];
  return next;
}

// How much of the time after a line a timer was late, as a share of it.
function lateShare(place) {
  if (!trace.held.late.size) return 0;
  const next = trace.next[place], late = trace.held.late.get(next);
  const long = trace.time[next] - trace.time[place];
  return late && long > 0 ? Math.min(1, late / long) : 0;
}

// For each column of pixels what held the sender back for most of it; 255 for nothing that is known.
function heldColumns(area, to) {
  const wide = Math.ceil(area.w), weights = new Float32Array(wide * HELD.length);
  const {after} = trace.held, first = Math.max(0, placeAt(view.from) - 1);
  const last = Math.min(trace.limit, trace.count - 1, placeAt(view.to));
  for (let i = first; i < last; i++) {
    if (!(after[i] >= 0)) continue;
    const from = to.x(view.x[i]) - area.x, until = to.x(view.x[i + 1]) - area.x;
    const turn = until - (until - from) * lateShare(i);
    weigh(weights, wide, from, turn, after[i]);
    weigh(weights, wide, turn, until, LATE);
  }
  return Uint8Array.from({length: wide}, (_, column) => heaviest(weights, column));
}

function weigh(weights, wide, from, until, code) {
  const begin = Math.max(0, from), end = Math.min(wide, until);
  if (!(end > begin)) return;
  for (let column = Math.floor(begin); column < end; column++)
    weights[column * HELD.length + code] += Math.min(end, column + 1) - Math.max(begin, column);
}

function heaviest(weights, column) {
  let found = 255, most = 0;
  for (let code = 0; code < HELD.length; code++) {
    const weight = weights[column * HELD.length + code];
    if (weight > most) [found, most] = [code, weight];
  }
  return found;
}

function drawHeld(context, area, to) {
  const columns = heldColumns(area, to), top = area.y + heldLane.top;
  context.save();
  for (let from = 0; from < columns.length;) {
    let end = from + 1;
    while (end < columns.length && columns[end] === columns[from]) end++;
    const box = {left: area.x + from, top, wide: end - from, tall: heldLane.tall};
    if (columns[from] < HELD.length && isShown(HELD[columns[from]].name)) heldBlock(context, columns[from], box, true);
    from = end;
  }
  context.restore();
}

// A block of the lane: its height and its bars tell it apart beside its colour.
function heldBlock(context, code, {left, top, wide, tall}, isNamed) {
  const {name, tone, share, bars} = HELD[code], high = Math.max(3, tall * share);
  context.fillStyle = colors[tone];
  context.globalAlpha = code === ROOM ? 0.6 : 0.85;
  if (!bars) context.fillRect(left, top + tall - high, wide, high);
  else for (let x = left; x < left + wide; x += 4)
    context.fillRect(x, top + tall - high, Math.min(2.5, left + wide - x), high);
  context.globalAlpha = 1;
  context.font = FONT;
  const long = context.measureText(name).width + 8;
  if (!isNamed || long > wide) return;
  const middle = left + wide / 2;
  backed(context, middle - long / 2, top, long, tall);
  words(context, name, middle, top + tall / 2 + 0.5, colors.ink, 'center');
}

const isHeldLane = y => heldLane && y >= heldLane.top - 2 && y <= heldLane.top + heldLane.tall + 2;

// In words.

// What held the sender back after a line, as the list of the longest silences says it.
function heldWords(place) {
  const {state, held} = trace, room = state.window[place] - state.in_flight[place];
  const left = `${grouped(room)} B of the window left`;
  switch (held.after[place]) {
    case OWED_LOSS: {
      const owed = state.said.owed_text[state.rowOf[place]];
      return `a loss is owed: ${owed} is to be declared lost first`;
    }
    case OWED_PROBE: return 'a probe is owed since the last probe timeout';
    case FULL: return `window full: ${fullness(room)}`;
    case LIMITED: return `application limited, as the log says, ${left}`;
    case WAITS: return `waiting for the ${timerName(place)}${inARow(place)}, ${left}`;
    case ROOM: return `room in the window and nothing sent, ${left}`;
    default: return '';
  }
}

function fullness(room) {
  if (room < 0) return `${grouped(-room)} B past it`;
  if (!room) return 'nothing left';
  return `${grouped(room)} B left, a datagram has ${grouped(trace.held.needed)} B`;
}

function timerName(place) {
  const code = trace.state.timer[place];
  return `${code >= OF_LOSS ? 'loss timer' : 'probe timeout'} of ${SPACES[code % OF_LOSS]}`;
}

function inARow(place) {
  const times = trace.state.pto_count[place];
  if (trace.state.timer[place] >= OF_LOSS || !times) return '';
  return ` after ${grouped(times)} probe timeout${times === 1 ? '' : 's'} in a row`;
}

// The line that ends the time after a line in which nothing but reports came; -1 for none.
function endOfStretch(place) {
  let next = trace.next[place];
  while (next >= 0 && trace.kind[next] === 'm' && next < trace.limit) next = trace.next[next];
  return next;
}

// The line since which nothing but reports had come before a line; -1 for none. Both are judged, or
// the second is the first that was not.
function beginOfStretch(place) {
  let before = place - 1;
  while (before >= 0 && (!hasTime(before) || trace.kind[before] === 'm')) before--;
  return place <= trace.limit && hasTime(place) && before >= 0 && hasState(before) ? before : -1;
}

// What the timer is set for after a line, how long it has to run, and how late it was at another.
function timerWords(place, end) {
  if (trace.state.timer[place] === NO_SPACE) return 'no timer is set';
  const left = Math.round(trace.state.deadline[place] - trace.time[place]);
  const due = left < 0 ? `was due ${milliseconds(-left)} before` : `had ${milliseconds(left)} to go`;
  const late = trace.held.late.get(end);
  const over = late ? `, and was ${milliseconds(late)} late at line ${grouped(trace.first + end)}` : '';
  return `the ${timerName(place)} ${due}${over}`;
}
