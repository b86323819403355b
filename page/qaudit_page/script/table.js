// The lines about the selected one, each with the state after it; and what the pointer is at.

const ROWS = 24;
const MOST_OF_LINE = 3000;
let tableFrom = 0;

// The columns behind the text of a line, with their amounts.
const COLUMNS = [
  ['window (B)', i => bytes('window', i)], ['in flight (B)', i => bytes('in_flight', i)],
  ['ssthresh (B)', i => bytes('ssthresh', i) || 'none'],
  ['latest (ms)', i => timeOf('latest_rtt', i)], ['min (ms)', i => timeOf('min_rtt', i)],
  ['smoothed (ms)', i => timeOf('smoothed_rtt', i)], ['rttvar (ms)', i => timeOf('rttvar', i)],
  ['PTOs', i => digitsOf('pto_count', i)], ['owed', owedAt], ['timer (ms)', timerAt],
];

const bytes = (name, place) => grouped(digitsOf(name, place));
const timeOf = (name, place) => withoutUnit(milliseconds(digitsOf(name, place)));
const withoutUnit = text => text.replace(' ms', '');

function owedAt(place) {
  const said = trace.state.said.owed_text[trace.state.rowOf[place]];
  return said ? `${trace.state.owed[place]}: ${said}` : String(trace.state.owed[place]);
}

function timerAt(place) {
  const code = trace.state.timer[place];
  if (code === NO_SPACE) return 'none';
  const exact = trace.state.said.deadline.exact[trace.state.rowOf[place]];
  const due = withoutUnit(milliseconds(exact || trace.state.deadline[place]));
  return `${code >= OF_LOSS ? 'loss' : 'PTO'} ${SPACES[code % OF_LOSS]} ${due}`;
}

const hasState = place => place < trace.limit && trace.state.rowOf[place] >= 0;
const hasTime = place => trace.timed[place] === 1;

// What the verdict is of a line, where it is not that the line is good.
function standing(place) {
  if (place === trace.verdictAt || place === trace.endAt) return 'verdict-line';
  if (trace.departed.has(place)) return 'departed';
  return place >= trace.limit ? 'unjudged' : '';
}

// What is said against a line: that it is refused or cannot be read, and each rule it departs from.
function judgements(place) {
  const said = [], named = it => `${it.rule} ${it.name}`;
  for (const [at, it] of [[trace.verdictAt, trace.verdict], [trace.endAt, trace.end]])
    if (at >= 0 && at === place) said.push(`${it.kind} ${named(it)}`);
  for (const it of trace.departed.get(place) || []) {
    const isVerdict = place === trace.verdictAt && named(it) === named(trace.verdict);
    if (!isVerdict) said.push(`violation ${named(it)}`);
  }
  return said;
}

// The same in a row, or that the line was not judged.
function standingOf(place) {
  return judgements(place).join(', ') || (standing(place) === 'unjudged' ? 'not judged' : '');
}

function fillTable() {
  const rows = [];
  for (let i = tableFrom; i < Math.min(trace.count, tableFrom + ROWS); i++) rows.push(rowOfLine(i));
  byId('rows').replaceChildren(...rows);
  byId('earlier').disabled = tableFrom === 0;
  byId('later').disabled = tableFrom + ROWS >= trace.count;
}

function rowOfLine(place) {
  const row = element('tr', undefined, standing(place));
  row.dataset.line = trace.first + place;
  if (place === view.selected) {
    row.classList.add('selected');
    row.setAttribute('aria-current', 'true');
  }
  const number = element('th', String(trace.first + place));
  number.scope = 'row';
  const said = element('td', undefined, 'text');
  for (const words of judgements(place)) said.append(element('span', words, 'tag'), ' ');
  put(said, trace.lines[place] || '', MOST_OF_LINE);
  const time = hasTime(place) ? withoutUnit(milliseconds(trace.time[place])) : '';
  row.append(number, cellOf('time (ms)', time), said);
  if (hasState(place)) {
    for (const [name, amount] of COLUMNS)
      row.append(cellOf(name, amount(place), changedTo(amount, place)));
  } else {
    // The text has the room of most of the columns that are empty.
    said.colSpan = COLUMNS.length - 1;
    row.append(cellWithout(place));
  }
  return row;
}

function cellOf(name, text, isChanged) {
  const cell = element('td', text, isChanged ? 'changed' : '');
  cell.dataset.name = name;
  return cell;
}

function cellWithout(place) {
  const isEnd = place === trace.stopAt, isBefore = place < trace.limit;
  const words = isEnd ? 'the model stops before this line' : isBefore ? '' : 'not judged';
  const cell = element('td', words, 'without');
  cell.colSpan = 2;
  return cell;
}

function turnTable(by) {
  tableFrom = Math.max(0, Math.min(trace.count - ROWS, tableFrom + by));
  fillTable();
}

// Selects a line. The table turns to it, unless it is there and stays; the view goes to it, unless
// it rests.
function select(place, {stays = false, zooms = false, rests = false, isNamed = true} = {}) {
  if (!trace.count) return;
  view.selected = Math.max(0, Math.min(trace.count - 1, place));
  const at = view.selected, isThere = at >= tableFrom && at < tableFrom + ROWS;
  if (!stays || !isThere) tableFrom = Math.max(0, Math.min(trace.count - ROWS, at - 9));
  fillTable();
  const x = view.x[at], half = (view.to - view.from) / 2;
  if (zooms) showAbout(at);
  else if (!isSeen(x) && !rests) show(x - half, x + half);
  else redraw();
  byId('said').textContent = summaryOf(at);
  fillPanel();
  if (isNamed) {
    pair?.activate(RUN);
    nameLine(trace.first + at);
  }
}

// Puts a line into the address, where the browser lets a page do so.
function nameLine(line) {
  try {
    history.replaceState(null, '', `#${LINKS}=${line}`);
  } catch (error) {
    if (error.name !== 'SecurityError') throw error;
  }
}

// A line in words, for those who hear the page.
function summaryOf(place) {
  const line = `Line ${trace.first + place}, ${KINDS[trace.kind[place]]}`;
  const time = hasTime(place) ? `, ${milliseconds(trace.time[place])}` : '';
  const packet = trace.packets.of[place] >= 0 ? `, ${fateOf(trace.packets.of[place])}` : '';
  const stand = standingOf(place), held = heldWords(place), origin = originOf(place);
  const from = origin && `, ${origin}`;
  return `${line}${time}${packet}${from}${stand && `, ${stand}`}${held && `; after it ${held}`}`;
}

// What became of a packet.
function fateOf(packet) {
  const {at, acked, lost, gone, size, space, flags} = trace.packets;
  const name = `packet ${numberOf(packet)} of ${SPACES[space[packet]]}`;
  const told = [`${name}, ${grouped(size[packet])} B`];
  if (flags[packet] & PROBE) told.push('a probe');
  if (flags[packet] & RECOVERY) told.push('on entry to recovery');
  const ends = [[lost, 'declared lost'], [acked, 'acknowledged'], [gone, 'gone with its keys']];
  for (const [ending, word] of ends) {
    const end = ending[packet];
    if (!(end === end)) continue;
    const isShown = end < trace.count && at[packet] >= 0;
    const after = isShown ? ` after ${milliseconds(trace.time[end] - trace.time[at[packet]])}` : '';
    told.push(`${word} at line ${trace.first + end}${after}`);
  }
  if (told.length === 1 || trace.packets.how[packet] === 'open') told.push('no ack');
  return told.join(', ');
}

// The place of what lies nearest to the pointer in a diagram; -1 where it is at none.
function nearest(name, x, y) {
  const area = charts[name].getArea();
  if (x < area.x || x > area.x + area.w || y < area.y || y > area.y + area.h) return -1;
  if (name === 'packets' && isHeldLane(y - area.y)) return heldPlace(area, x);
  const at = name === 'packets' ? nearestPacket(area, x, y) : -1;
  if (at >= 0) return at;
  const to = scaleOf(area, [0, 1]), isNear = place => Math.abs(to.x(view.x[place]) - x) < 4;
  const judged = [trace.verdictAt, trace.endAt, ...trace.departed.keys()].filter(it => it >= 0);
  const told = judged.find(isNear);
  if (told !== undefined) return told;
  const mark = trace.marks.find(it => isNear(it.at));
  if (mark) return mark.at;
  const value = view.from + (x - area.x) / area.w * (view.to - view.from), next = placeAt(value);
  if (next <= 0 || next >= trace.count) return Math.max(0, Math.min(trace.count - 1, next));
  return view.x[next] - value < value - view.x[next - 1] ? next : next - 1;
}

// The last line before an x: the one after which the sender was held back there.
function heldPlace(area, x) {
  const value = view.from + (x - area.x) / area.w * (view.to - view.from);
  return Math.max(0, Math.min(trace.count - 1, placeAt(value)) - 1);
}

function nearestPacket(area, x, y) {
  const to = scaleOf(area, [0, 1]), {at, acked, lost} = trace.packets;
  let found = -1, least = 144;
  for (const p of shownPackets) {
    const high = yOfPacket(area, p) - y;
    if (high > 12 || high < -12) continue;
    for (const [place, more] of [[at[p], 0], [lost[p], 1], [acked[p], 2]]) {
      if (!(place >= 0 && place < trace.count)) continue;
      const wide = to.x(view.x[place]) - x, distance = wide * wide + high * high + more;
      if (distance < least) [least, found] = [distance, place];
    }
  }
  return found;
}
