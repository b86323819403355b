// The panel beside the diagrams: what is known of the line under the cursor, and else of the one
// that is selected. The cursor is an upright in all diagrams.

// The line under the cursor, and the x of the cursor, which may be over the other run.
let cursorAt = -1, cursorX = NaN, isCursorHere = true, isJsonOpen = false;
// The values of a state: their names, their columns, and those of reports.
const VALUES = [
  ['window', 'window', 'window', 'B'], ['in flight', 'in_flight', 'bytes_in_flight', 'B'],
  ['headroom', '', '', 'B'], ['ssthresh', 'ssthresh', 'ssthresh', 'B'],
  ['latest', 'latest_rtt', 'latest_rtt', 'ms'], ['min', 'min_rtt', 'min_rtt', 'ms'],
  ['smoothed', 'smoothed_rtt', 'smoothed_rtt', 'ms'], ['rttvar', 'rttvar', 'rttvar', 'ms'],
  ['PTO count', 'pto_count', '', ''],
];

// The record of a line, by the line or the byte of the log, or where the line was guessed.
const ORIGIN = /^(guessed at )?(line|byte) (\d{1,18})(?: to (?:line|byte) (\d{1,18}))?$/;

// Shows a line under the cursor, in all diagrams; -1 for none.
function showCursor(place) {
  if (place === cursorAt && isCursorHere) return;
  [cursorAt, cursorX, isCursorHere] = [place, place < 0 ? NaN : view.x[place], true];
  moveCursors();
  fillPanel();
  pair?.otherOf(RUN)?.follow(cursorX);
}

// Shows the cursor of the other run: what this one had come to then.
function followCursor(x) {
  [cursorAt, cursorX, isCursorHere] = [x === x ? lastPlaceAt(x) : -1, x, false];
  moveCursors();
  fillPanel();
}

function moveCursors() {
  for (const name of Object.keys(charts)) moveCursor(byId(`chart-${name}`), charts[name].getArea());
}

function moveCursor(box, area) {
  const it = box.querySelector('.cursor') || box.appendChild(element('div', '', 'cursor'));
  const x = scaleOf(area, [0, 1]).x(cursorX);
  it.hidden = !(x >= area.x && x <= area.x + area.w);
  Object.assign(it.style, {left: `${x}px`, top: `${area.y}px`, height: `${area.h}px`});
}

// What the panel says of its line; of none, how one is selected.
function fillPanel() {
  const place = cursorAt >= 0 ? cursorAt : view.selected, box = byId('panel-lines');
  if (place < 0) {
    box.replaceChildren(element('p', 'Move over a diagram, click into it to select a line, or ' +
      'press \u2192.', 'hint'));
    return;
  }
  const time = hasTime(place) ? ` at ${milliseconds(trace.time[place])}` : '';
  const head = element('h2', `Line ${grouped(trace.first + place)}${time}`);
  head.append(' ', element('small', whereOf(place)));
  const said = [head, element('p', whatOf(place), 'what')], stand = standingOf(place);
  const origin = originOf(place);
  if (origin) said.push(element('p', origin, 'origin'));
  if (stand) said.push(element('p', stand, 'stand'));
  box.replaceChildren(...said, ...otherPart(place), ...heldParts(place), valuesOf(place), jsonOf(place));
}

// Where in the log a line comes from, as the converter says at its key; nothing if it does not.
function originOf(place) {
  const found = ORIGIN.exec(keyOf(place, 'x_place'));
  if (!found) return '';
  const [, guessed, unit, first, last] = found;
  const many = last && last !== first ? `${unit}s ${grouped(first)} to ${grouped(last)}` : '';
  const where = `${many || `${unit} ${grouped(first)}`} of the log`;
  return guessed ? `no record; guessed at ${where}` : where;
}

// The value of a key of a line, if it is text.
function keyOf(place, key) {
  try {
    const value = JSON.parse(trace.lines[place])[key];
    return typeof value === 'string' ? value : '';
  } catch {
    // Not every line is an object.
    return '';
  }
}

// Why the panel has a line; beside another run, and if clocks differ, where it is on the axis.
function whereOf(place) {
  const drawn = trace.shift && hasTime(place) ? `, at ${tickOf(view.x[place])} ms on the axis` : '';
  if (place === view.selected) return `selected${drawn}`;
  return (isCursorHere ? 'under the cursor' : 'at the same time') + drawn;
}

// A link to the last line of the other run that was not later.
function otherPart(place) {
  const other = pair?.otherOf(RUN);
  if (!other) return [];
  const at = other.lastPlaceAt(view.x[place]);
  if (at < 0) return [element('p', `${other.title} begins later.`, 'hint')];
  const link = element('a', `${other.title} at the same time: line ${grouped(other.lineOf(at))}`);
  link.href = other.hashOf(at);
  link.addEventListener('click', event => {
    event.preventDefault();
    other.visit(at);
  });
  const part = element('p', undefined, 'other');
  part.append(link);
  return [part];
}

// What a line says, in words.
function whatOf(place) {
  const {of, acked, lost, size, space} = trace.packets, kind = trace.kind[place];
  if (of[place] >= 0) return `sent: ${fateOf(of[place])}`;
  if (kind !== 'a' && kind !== 'l') {
    const mark = trace.marks.find(it => it.at === place);
    return mark ? mark.label : {m: 'report of the sender'}[kind] || KINDS[kind];
  }
  const ends = kind === 'a' ? acked : lost;
  let count = 0, bytes = 0;
  for (let p = 0; p < trace.packets.count; p++) if (ends[p] === place) {
    count++;
    bytes += size[p];
  }
  const what = kind === 'a' ? 'acknowledgment of' : 'declared lost in';
  const many = `${grouped(count)} packet${count === 1 ? '' : 's'}, ${grouped(bytes)} B`;
  return `${what} ${SPACES[trace.space[place]]}: ${many}${kind === 'a' ? ' for the first time' : ''}`;
}

// The report of the state after a line: on the line, or after it before anything happens; -1 for
// none.
function reportOf(place) {
  const {at} = trace.reports, k = firstNotBelow(at, place);
  if (k === at.length) return -1;
  for (let i = place + 1; i < at[k]; i++) if (hasTime(i)) return -1;
  return k;
}

// A table: each value by the model, as reported, and the difference; bold if the line changed it.
function valuesOf(place) {
  const table = element('table'), k = reportOf(place), isReported = trace.reports.at.length > 0;
  const names = ['', 'model', ...(isReported ? ['reported', 'difference'] : [])];
  const head = element('tr');
  head.append(...names.map(name => {
    const cell = element('th', name);
    cell.scope = 'col';
    return cell;
  }));
  table.append(head, ...VALUES.map(it => rowOfValue(it, place, isReported ? k : undefined)));
  if (hasState(place)) for (const [name, text] of [['owed', owedAt], ['timer', timerText]])
    table.append(rowOfText(name, text(place), changedTo(text, place)));
  return table;
}

function rowOfValue([name, column, reported, unit], place, k) {
  const row = element('tr'), head = element('th', name);
  head.scope = 'row';
  const value = hasState(place) ? valueAt(column, place) : '';
  const model = element('td', hasState(place) ? withUnit(value, unit) || 'none' : '');
  if (hasState(place) && changedTo(at => valueAt(column, at), place)) model.className = 'changed';
  row.append(head, model);
  if (k === undefined) return row;
  const said = reported && k >= 0 ? reportedDigits(reported, k) : '';
  const apart = said && value ? BigInt(said) - BigInt(value) : 0n;
  const sign = apart > 0n ? '+' : '';
  const differs = !said || !value ? '' : apart ? sign + withUnit(String(apart), unit) : '0';
  row.append(element('td', withUnit(said, unit)), element('td', differs, apart ? 'differs' : ''));
  return row;
}

function rowOfText(name, text, isChanged) {
  const row = element('tr'), head = element('th', name), cell = element('td', text);
  head.scope = 'row';
  cell.colSpan = 3;
  cell.className = isChanged ? 'text changed' : 'text';
  row.append(head, cell);
  return row;
}

// The digits of a value of the model; those of the headroom are of a difference.
function valueAt(column, place) {
  if (column) return digitsOf(column, place);
  return String(BigInt(digitsOf('window', place)) - BigInt(digitsOf('in_flight', place)));
}

// Whether a line made a value another one than it was after the line before.
const changedTo = (value, place) => place > 0 && hasState(place - 1) && value(place) !== value(place - 1);

function reportedDigits(name, k) {
  const exact = trace.reports.said[name].exact[k], value = trace.reports[name][k];
  return exact || (value === value ? String(value) : '');
}

function withUnit(digits, unit) {
  if (!digits) return '';
  return unit === 'ms' ? milliseconds(digits) : `${grouped(digits)}${unit && ` ${unit}`}`;
}

function timerText(place) {
  const code = trace.state.timer[place];
  if (code === NO_SPACE) return 'none';
  return `${code >= OF_LOSS ? 'loss' : 'PTO'} ${SPACES[code % OF_LOSS]}, due at ${dueAt(place)}`;
}

const dueAt = place => milliseconds(
  trace.state.said.deadline.exact[trace.state.rowOf[place]] || trace.state.deadline[place]);

// The line itself, folded until it is asked for.
function jsonOf(place) {
  const box = element('details'), said = element('code');
  put(said, trace.lines[place] || '', MOST_OF_LINE);
  box.append(element('summary', 'JSON of the line'), said);
  box.open = isJsonOpen;
  box.addEventListener('toggle', () => { isJsonOpen = box.open; });
  return box;
}

// What held the sender back before a line and after it, each for how long, and what the timer did.
function heldParts(place) {
  const begin = beginOfStretch(place), end = endOfStretch(place), parts = [];
  const long = (from, to) => milliseconds(trace.time[to] - trace.time[from]);
  const named = at => `line ${grouped(trace.first + at)} (${KINDS[trace.kind[at]]})`;
  if (begin >= 0 && trace.time[place] > trace.time[begin])
    parts.push(...heldPart(place - 1, place,
      `Before it nothing happened for ${long(begin, place)}, since ${named(begin)}:`));
  const until = end < 0 ? 'no line comes' : `nothing happened for ${long(place, end)}, until ${named(end)}`;
  if (hasState(place) && !(trace.time[end] === trace.time[place] && parts.length))
    parts.push(...heldPart(place, end, `After it ${until}:`));
  return parts;
}

function heldPart(place, end, head) {
  const why = element('p', undefined, 'why');
  why.append(element('b', heldWords(place)), `; ${timerWords(place, end)}`);
  const tone = trace.held.late.has(end) ? LATE : trace.held.after[place];
  why.classList.add(`held-${HELD[tone].tone}`);
  return [element('p', head, 'hint'), why];
}
