// What the page holds: columns and lines, unpacked. What a trace says is text, and never markup.

const SPACES = ['initial', 'handshake', 'app'];
const NO_SPACE = 3;
const OF_LOSS = 4;
const ELICITING = 1;
const PROBE = 4;
const RECOVERY = 8;
const KINDS = {
  h: 'header', s: 'sent', a: 'ack', l: 'lost', t: 'timer', d: 'discard', c: 'confirmed', k: 'keys',
  m: 'metrics', b: 'blank', u: 'not readable',
};
const AMOUNTS = [
  'window', 'ssthresh', 'in_flight', 'latest_rtt', 'min_rtt', 'smoothed_rtt', 'rttvar', 'pto_count',
];
const METRICS = [
  'window', 'ssthresh', 'bytes_in_flight', 'latest_rtt', 'min_rtt', 'smoothed_rtt', 'rttvar',
];
// What a run has of the page, and what two runs share.
const byId = id => document.getElementById(RUN + id);
const shared = id => document.getElementById(id);

// The values whose differences these are.
function summed(differences) {
  const values = new Float64Array(differences.length);
  let sum = 0;
  for (let i = 0; i < differences.length; i++) {
    sum += differences[i];
    values[i] = sum;
  }
  return values;
}

// A column, where -1 stands for what is absent.
function amounts(column) {
  const values = summed(column.by);
  for (let i = 0; i < values.length; i++) if (values[i] === -1) values[i] = NaN;
  return values;
}

// Codes that are written as a digit in base 16 each.
function codesOf(digits) {
  const codes = new Uint8Array(digits.length);
  for (let i = 0; i < digits.length; i++) {
    const char = digits.charCodeAt(i);
    codes[i] = char < 58 ? char - 48 : char - 87;
  }
  return codes;
}

// Whether each line has a time of its own, which a header, a blank line and one that cannot be read
// do not have.
function timedOf(kinds) {
  const timed = new Uint8Array(kinds.length);
  for (let i = 0; i < kinds.length; i++) timed[i] = 'hbu'.includes(kinds[i]) ? 0 : 1;
  return timed;
}

const trace = {};

function unpack(said, text) {
  Object.assign(trace, said);
  trace.lines = text.split('\n');
  trace.time = summed(said.time);
  // How many of the trace's units of time are a millisecond.
  trace.scale = said.unit === 'ns' ? 1e6 : 1e3;
  // How much later than its clock says it is drawn, in milliseconds, beside another run.
  trace.shift = said.shift || 0;
  trace.space = codesOf(said.space);
  trace.timed = timedOf(said.kind);
  // The place of the first line that was not judged.
  trace.limit = said.unjudged === null ? said.count : Math.max(0, said.unjudged - said.first);
  trace.stopAt = said.unjudged === null ? -1 : placeShown(said.unjudged);
  trace.verdictAt = placeShown(said.verdict.line);
  // Past departures the trace ends in another way, and at another line.
  trace.endAt = said.end && said.end.kind !== 'accepted' ? placeShown(said.end.line) : -1;
  // The line about which the page opens.
  trace.opensAt = placeShown(said.opens);
  trace.departed = departedOf(said.departures);
  unpackState(said.state);
  unpackHeld(said.held);
  unpackPackets(said.packets);
  // The greatest numbers count from the least of their space, as those of packets do.
  trace.acks = {at: placesOf(said.acks.line), number: summed(said.acks.greatest.by)};
  trace.reports = {at: placesOf(said.metrics.line), said: said.metrics};
  for (const name of METRICS) trace.reports[name] = amounts(said.metrics[name]);
  trace.marks = marksOf();
  trace.silences = silencesOf();
  trace.culprits = culpritsOf();
}

const placesOf = lines => summed(lines).map(line => line - trace.first);

// The place of a line; -1 where it is not shown.
function placeShown(line) {
  const place = line - trace.first;
  return line > 0 && place >= 0 && place < trace.count ? place : -1;
}

// The rules of conduct that lines depart from, by the places of the lines.
function departedOf(kinds) {
  const found = new Map();
  for (const {lines, ...kind} of kinds) for (const at of placesOf(lines)) {
    if (!found.has(at)) found.set(at, []);
    found.get(at).push(kind);
  }
  return new Map([...found].sort(([one], [other]) => one - other));
}

// The first place of rising values that is not below a value.
function firstNotBelow(values, value) {
  let low = 0, high = values.length;
  while (low < high) {
    const middle = (low + high) >> 1;
    if (values[middle] < value) low = middle + 1;
    else high = middle;
  }
  return low;
}

// The state behind each line: that of its row, of a blank line that of the row above.
function unpackState(said) {
  const rows = placesOf(said.line);
  const rowOf = new Int32Array(trace.count).fill(-1);
  let row = -1;
  for (let place = 0; place < trace.limit; place++) {
    if (row + 1 < rows.length && rows[row + 1] === place) row++;
    rowOf[place] = row;
  }
  const state = {rowOf, said};
  for (const name of AMOUNTS) state[name] = spread(amounts(said[name]), rowOf);
  state.owed = spread(summed(said.owed), rowOf);
  const after = summed(said.deadline.by);
  for (let i = 0; i < rows.length; i++) after[i] += trace.time[rows[i]];
  const timer = codesOf(said.timer);
  state.timer = new Uint8Array(trace.count).fill(NO_SPACE);
  for (let i = 0; i < trace.count; i++) if (rowOf[i] >= 0) state.timer[i] = timer[rowOf[i]];
  state.deadline = spread(after, rowOf);
  for (let i = 0; i < trace.count; i++) if (state.timer[i] === NO_SPACE) state.deadline[i] = NaN;
  trace.state = state;
  trace.judged = rows.length;
  trace.firstSample = state.min_rtt.findIndex((least, i) => least > 0 || state.latest_rtt[i] > 0);
  if (trace.firstSample < 0) trace.firstSample = trace.count;
}

// The values of rows for each line; NaN for those before the first row and those not judged.
function spread(values, rowOf) {
  const found = new Float64Array(rowOf.length);
  for (let i = 0; i < rowOf.length; i++) found[i] = rowOf[i] < 0 ? NaN : values[rowOf[i]];
  return found;
}

// The digits of an amount of a state, all of them.
function digitsOf(name, place) {
  const exact = trace.state.said[name].exact[trace.state.rowOf[place]];
  if (exact !== undefined) return exact;
  const value = trace.state[name][place];
  return value === value ? String(value) : '';
}

function unpackPackets(said) {
  const packets = {
    line: summed(said.line), space: codesOf(said.space),
    number: summed(said.number.by), exact: said.number.exact, size: summed(said.size),
    flags: codesOf(said.flags),
    least: said.least.map(BigInt), before: said.before,
  };
  packets.count = packets.line.length;
  packets.at = packets.line.map(line => line - trace.first);
  for (const end of ['acked', 'lost', 'gone']) packets[end] = endsOf(said[end], packets.at);
  unpackEnds(packets);
  packets.of = new Int32Array(trace.count).fill(-1);
  for (let p = 0; p < packets.count; p++) if (packets.at[p] >= 0) packets.of[packets.at[p]] = p;
  trace.packets = packets;
}

// The places at which packets ended, by how many lines that was after each; NaN for those that did
// not.
function endsOf(after, at) {
  const ends = new Float64Array(at.length);
  for (let p = 0; p < at.length; p++) ends[p] = after[p] ? at[p] + after[p] : NaN;
  return ends;
}

// The number of a packet, exactly.
function numberOf(packet) {
  const {least, space, number, exact} = trace.packets;
  return least[space[packet]] + BigInt(exact[packet] || number[packet]);
}

// What became of each packet, and where.
function unpackEnds(packets) {
  const {lost, acked, gone} = packets;
  packets.how = new Array(packets.count);
  packets.end = new Float64Array(packets.count).fill(NaN);
  for (let p = 0; p < packets.count; p++) {
    packets.how[p] = lost[p] === lost[p] ? 'lost' : acked[p] === acked[p] ? 'acked' :
      gone[p] === gone[p] ? 'gone' : packets.flags[p] & ELICITING ? 'open' : 'bare';
    const ended = packets[packets.how[p]];
    if (ended) packets.end[p] = ended[p];
  }
}

// The lines that are drawn as uprights in all diagrams.
function marksOf() {
  const marks = [];
  const words = {d: 'discard', c: 'confirmed', k: 'keys'};
  for (let at = 0; at < trace.count; at++) {
    const kind = trace.kind[at], code = trace.space[at], name = SPACES[code % OF_LOSS];
    if (kind === 't') {
      const of = code >= OF_LOSS ? 'loss' : 'pto';
      const label = `${of === 'loss' ? 'loss timer' : 'PTO'} ${name}`;
      marks.push({at, of, space: code % OF_LOSS, label});
    } else if (kind === 'd')
      marks.push({at, of: 'discard', space: code, label: `${name} discarded`});
    else if (kind === 'c') marks.push({at, of: 'confirmed', label: 'confirmed'});
    else if (kind === 'k') marks.push({at, of: 'keys', label: 'Handshake keys'});
  }
  return marks;
}

// Where nothing happened for longer than the deadline of the timer that was set. A report ends no
// such silence.
function silencesOf() {
  const found = [], {deadline, timer, in_flight: flying} = trace.state;
  // A deadline that is past when it is set counts from then.
  let from = -1, since = 0;
  for (let at = 0; at < trace.count && at <= trace.limit; at++) {
    if (!hasTime(at)) continue;
    const over = trace.time[at] - Math.max(deadline[from], since);
    if (over > 0) {
      // One that went on past a report is one.
      if (found.length && found[found.length - 1].from === from) found.pop();
      const long = trace.time[at] - trace.time[from];
      found.push({from, at, over, long, flying: flying[from]});
    }
    if (trace.kind[at] === 'm') continue;
    const isAnother = timer[at] !== timer[from] || deadline[at] !== deadline[from];
    if (isAnother) since = trace.time[at];
    from = at;
  }
  return found.sort((a, b) => b.over - a.over).slice(0, 2000);
}

// The values that are refused, or that depart.
function culpritsOf() {
  const isRefused = trace.verdict.kind === 'refused';
  const lines = trace.departed.size ? [...trace.departed] :
    isRefused ? [[trace.verdictAt, [trace.verdict]]] : [];
  return lines.flatMap(([at, rules]) => rules.map(rule => culpritOf(at, rule))).filter(Boolean);
}

// What a line would make of the state, or says of it, and the diagram that has that.
function culpritOf(at, {rule, field}) {
  if (at < 1) return null;
  const packet = trace.packets.of[at];
  if (rule === 'V7' && packet >= 0) {
    const value = trace.state.in_flight[at - 1] + trace.packets.size[packet];
    return {at, chart: 'window', value, room: trace.state.window[at - 1] - value};
  }
  const report = firstNotBelow(trace.reports.at, at);
  const of = {V16: field, V19: 'window'}[rule];
  if (trace.reports.at[report] !== at || !of) return null;
  const chart = /rtt/.test(of) ? 'rtt' : 'window';
  return {at, chart, value: trace.reports[of][report]};
}

// Text for people.

function grouped(digits) {
  return String(digits).replace(/\B(?=(\d{3})+(?!\d))/g, ',');
}

// A time of the trace in milliseconds, with all of its digits.
function milliseconds(digits) {
  const text = String(digits), sign = text.startsWith('-') ? '-' : '';
  const places = trace.scale === 1e6 ? 6 : 3;
  const padded = text.replace('-', '').padStart(places + 1, '0');
  const rest = padded.slice(-places).replace(/0+$/, '');
  return sign + grouped(padded.slice(0, -places)) + (rest ? '.' + rest : '') + ' ms';
}

// What is not seen when it is printed, or turns the order of text around.
const UNSEEN = new RegExp('[\\u0000-\\u001f\\u007f-\\u00a0\\u00ad\\u034f\\u061c\\u115f\\u1160' +
  '\\u17b4\\u17b5\\u180b-\\u180f\\u200b-\\u200f\\u2028-\\u202f\\u205f-\\u206f\\u2800\\u3164' +
  '\\ufe00-\\ufe0f\\ufeff\\uffa0\\ufff0-\\uffff\\u{e0000}-\\u{e0fff}]|\\p{Cs}|\\p{Cn}', 'gu');

// Puts foreign text into an element: as text nodes, with an escape for what is not seen.
function put(parent, text, most) {
  const shown = text.length > most ? text.slice(0, most) : text;
  let at = 0;
  for (const found of shown.matchAll(UNSEEN)) {
    putPlain(parent, shown.slice(at, found.index));
    parent.append(element('span', `\\u{${found[0].codePointAt(0).toString(16)}}`, 'escape'));
    at = found.index + found[0].length;
  }
  putPlain(parent, shown.slice(at));
  if (shown !== text) parent.append(` .. (${grouped(text.length)} characters)`);
}

// Text that may be broken behind a comma; what is copied is the text alone.
function putPlain(parent, text) {
  text.split(/(?<=,)/).forEach((piece, place) => {
    if (place) parent.append(document.createElement('wbr'));
    parent.append(piece);
  });
}

function element(name, text, className) {
  const made = document.createElement(name);
  if (text !== undefined) made.textContent = text;
  if (className) made.className = className;
  return made;
}

function tell(text) {
  shared('trouble').textContent = pair ? `${trace.title}: ${text}` : text;
  shared('trouble').hidden = false;
}
