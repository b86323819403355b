// Finds lines: by number, by packet, by rule, by what they are, by what held the sender back after
// them, and by their text.

// What a word finds, by the kind of a line and what it says.
const FINDS = {
  lost: at => trace.kind[at] === 'l', ack: at => trace.kind[at] === 'a',
  sent: at => trace.kind[at] === 's', timer: at => trace.kind[at] === 't',
  pto: at => trace.kind[at] === 't' && trace.space[at] < OF_LOSS,
  loss: at => trace.kind[at] === 'l' || (trace.kind[at] === 't' && trace.space[at] >= OF_LOSS),
  report: at => trace.kind[at] === 'm', metrics: at => trace.kind[at] === 'm',
  discard: at => trace.kind[at] === 'd', keys: at => trace.kind[at] === 'k',
  confirmed: at => trace.kind[at] === 'c', probe: at => hasFlag(at, PROBE),
  recovery: at => hasFlag(at, RECOVERY), violation: at => rulesOf(at).length > 0,
  late: at => trace.held.late.has(at), silence: at => trace.silences.some(it => it.at === at),
};
const FIND_HINT = 'a line, app 37, V7, lost, pto, window full, or any text';
let lastFound = {text: '', places: []};

const hasFlag = (at, flag) =>
  trace.packets.of[at] >= 0 && (trace.packets.flags[trace.packets.of[at]] & flag) > 0;

// The rules that a line breaks.
function rulesOf(place) {
  const ends = [[trace.verdictAt, trace.verdict], [trace.endAt, trace.end]];
  return [...(trace.departed.get(place) || []), ...ends.filter(([at, it]) =>
    at === place && place >= 0 && it.kind !== 'accepted').map(([, it]) => it)];
}

// What finds lines by a text; null for nothing to find.
function finderOf(text) {
  const word = text.trim().toLowerCase();
  const line = /^\d{1,15}$/.exec(word), packet = /^(initial|handshake|app)\s+(\d{1,19})$/.exec(word);
  if (line) return at => trace.first + at === +word;
  if (packet) {
    const space = SPACES.indexOf(packet[1]), number = BigInt(packet[2]), {of} = trace.packets;
    return at => of[at] >= 0 && trace.packets.space[of[at]] === space && numberOf(of[at]) === number;
  }
  if (/^[vf]\d{1,2}$/.test(word))
    return at => rulesOf(at).some(it => it.rule.toLowerCase() === word);
  if (Object.hasOwn(FINDS, word)) return FINDS[word];
  // Where such a time begins: of many lines in it the first is found.
  const code = HELD.findIndex(it => it.name === word);
  if (code === LATE) return FINDS.late;
  if (code >= 0) return at => trace.held.after[at] === code && trace.held.after[at - 1] !== code;
  return word && (at => trace.lines[at].toLowerCase().includes(word));
}

// Selects the next line that a text finds, after the one that is selected, or before it; the first
// one again after the last.
function find(text, isBack = false) {
  if (lastFound.text !== text) {
    const finds = finderOf(text), places = [];
    for (let at = 0; finds && at < trace.count; at++) if (finds(at)) places.push(at);
    lastFound = {text, places};
  }
  const {places} = lastFound, {selected} = view;
  byId('found').textContent = places.length || !text.trim() ? '' : `not in this page; try ${FIND_HINT}`;
  if (!places.length) return;
  const next = isBack ? places.findLastIndex(at => at < selected) : places.findIndex(at => at > selected);
  const place = next >= 0 ? next : isBack ? places.length - 1 : 0;
  if (places.length > 1)
    byId('found').textContent = `${grouped(place + 1)} of ${grouped(places.length)}`;
  select(places[place], {zooms: true});
}
