// What a person does: buttons, keys, the pointer, the wheel and fingers.

const CLICK = 5;
const STEP = 1.3;

// How addresses name the lines of this run.
const LINKS = RUN.slice(0, -1) || 'line';

// Goes to the line that the address names.
function followAddress() {
  const found = new RegExp(`^#${LINKS}=(\\d{1,10})$`).exec(location.hash);
  if (!found) return false;
  const place = placeShown(+found[1]);
  if (place >= 0) {
    pair?.activate(RUN);
    select(place, {zooms: true, isNamed: false});
  } else tell(`Line ${found[1]} is not in this page, which has lines ${trace.first} to ` +
    `${trace.first + trace.count - 1} of ${trace.total}.`);
  return place >= 0;
}

// The same for a link of the page; the diagrams come into sight if they are below.
function followLink() {
  const isBelow = byId('chart-packets').getBoundingClientRect().top > innerHeight - 100;
  if (followAddress() && isBelow) (pair ? byId('run') : byId('main')).scrollIntoView();
}

function changeAxis(event) {
  const isWhole = view.from <= view.low && view.to >= view.high;
  const first = placeAt(view.from), last = Math.max(first, placeAt(view.to) - 1);
  view.byLine = event.target.value === 'line';
  setAxis();
  charts.packets.updateOptions({file: ends(), dateWindow: [view.low, view.high]}, true);
  charts.rtt.updateOptions({xlabel: nameOfAxis()}, true);
  if (isWhole) showAll();
  else showAround(first, last, 0);
}

const toVerdict = () => trace.opensAt >= 0 && select(trace.opensAt, {zooms: true});

// Selects the next line that departs, or the one before.
function toDeparture(by) {
  const at = view.selected, places = [...trace.departed.keys()];
  const next = by > 0 ? places.find(it => it > at) : places.filter(it => it < at).pop();
  if (next !== undefined) select(next);
}

const KEYS = {
  ArrowLeft: event => event.shiftKey ? pan(-0.25) : select(view.selected - 1, {stays: true}),
  ArrowRight: event => event.shiftKey ? pan(0.25) : select(view.selected + 1, {stays: true}),
  Home: () => select(0), End: () => select(trace.count - 1),
  '+': () => zoom(0.5), '=': () => zoom(0.5), '-': () => zoom(2), '0': showAll, v: toVerdict,
  n: () => toDeparture(1), p: () => toDeparture(-1),
  '/': () => byId('find').focus(), '?': toggleHelp, Escape: () => showCursor(-1),
};

// Shows all keys, or closes them again. The browser gives the focus back.
function toggleHelp() {
  if (shared('help').open) shared('help').close();
  else shared('help').showModal();
}

function onKey(event) {
  if (!isActive() || (shared('help').open && event.key !== '?')) return;
  if (event.ctrlKey || event.metaKey || event.altKey) return;
  if (/^(INPUT|SELECT|TEXTAREA)$/.test(event.target.tagName)) return;
  const does = KEYS[event.key];
  if (!does) return;
  event.preventDefault();
  does(event);
}

// Whether the keys and the buttons of the page are for this run.
const isActive = () => !pair || pair.active === RUN;

const onClick = (element, does) => element.addEventListener('click', does);

// Of two runs, the diagrams of this one and its table.
const partsOfRun = () => [byId('run'), byId('below')];

// The buttons that two runs share.
function addShared() {
  const click = (id, does) => onClick(shared(id), () => isActive() && does());
  click('zoom-in', () => zoom(0.5));
  click('zoom-out', () => zoom(2));
  click('zoom-all', showAll);
  click('pan-left', () => pan(-0.25));
  click('pan-right', () => pan(0.25));
  click('to-help', toggleHelp);
  click('help-close', toggleHelp);
  addEventListener('keydown', onKey);
  if (!pair) byId('axis').addEventListener('change', changeAxis);
  else for (const name of ['pointerdown', 'focusin']) for (const part of partsOfRun())
    part.addEventListener(name, () => pair.activate(RUN), true);
}

function addControls() {
  const click = (id, does) => onClick(byId(id), does);
  addShared();
  click('earlier', () => turnTable(-ROWS));
  click('later', () => turnTable(ROWS));
  click('to-verdict', toVerdict);
  click('departure-before', () => toDeparture(-1));
  click('departure-next', () => toDeparture(1));
  click('rows', event => {
    const row = event.target.closest('tr');
    if (row && !getSelection().toString()) select(placeShown(+row.dataset.line), {stays: true});
  });
  byId('find').addEventListener('keydown', event =>
    event.key === 'Enter' && find(event.target.value, event.shiftKey));
  addEventListener('hashchange', followLink);
  // A link to the line that is in the address leads there again.
  addEventListener('click', event => {
    const link = event.target.closest(`a[href^="#${LINKS}="]`);
    if (link && link.hash === location.hash && !event.defaultPrevented) followLink();
  });
  addEventListener('resize', redraw);
  byId('departures-bar').hidden = !trace.departed.size;
  byId('to-verdict').hidden = trace.opensAt < 0;
  byId('to-verdict').textContent = `Go to line ${trace.opens}`;
  byId('to-verdict').classList.add(trace.verdict.kind);
  for (const space of [0, 1, 2]) addSpace(space);
  for (const name of Object.keys(charts)) addPointer(name);
  addStrip();
}

// A button that shows and hides the packets of a space.
function addSpace(space) {
  const count = trace.packets.space.reduce((sum, it) => sum + (it === space), 0);
  if (!count) return;
  const sign = '\u25b2\u25a0\u25cf'[space];
  const button = element('button', `${sign} ${SPACES[space]} ${grouped(count)}`);
  button.type = 'button';
  button.classList.add(SPACES[space]);
  button.setAttribute('aria-pressed', 'true');
  button.addEventListener('click', () => {
    shownSpaces[space] = !shownSpaces[space];
    button.setAttribute('aria-pressed', String(shownSpaces[space]));
    redraw();
  });
  byId('spaces').append(button);
}

// The pointer over a diagram: a click selects, a drag zooms, with shift it pans; one finger pans
// and two zoom.
function addPointer(name) {
  const box = byId(`chart-${name}`), pointers = new Map();
  let gesture = null;
  const at = event => ({x: event.clientX - box.getBoundingClientRect().left,
    y: event.clientY - box.getBoundingClientRect().top});
  const area = () => charts[name].getArea();
  const isInside = point => point.y <= area().y + area().h && point.y >= area().y;
  box.addEventListener('pointerdown', event => {
    if (event.button > 1 || !isInside(at(event))) return;
    pointers.set(event.pointerId, at(event));
    const isTouch = event.pointerType === 'touch';
    const pans = isTouch || event.shiftKey || event.altKey || event.button === 1;
    gesture = {begin: at(event), view: [view.from, view.to], pans, points: [...pointers.values()]};
    if (!isTouch) box.setPointerCapture(event.pointerId);
    showCursor(-1);
  });
  box.addEventListener('pointermove', event => {
    const point = at(event);
    if (!pointers.has(event.pointerId)) {
      if (event.pointerType !== 'touch') showCursor(nearest(name, point.x, point.y));
      return;
    }
    pointers.set(event.pointerId, point);
    moved(box, area(), gesture, [...pointers.values()]);
  });
  const end = event => {
    if (!pointers.delete(event.pointerId)) return;
    if (event.type === 'pointerup') ended(name, area(), gesture, at(event));
    hideRubber(box);
    // The fingers that are left begin anew.
    const points = [...pointers.values()];
    gesture = points.length && {begin: points[0], view: [view.from, view.to], pans: true, points};
  };
  box.addEventListener('pointerup', end);
  box.addEventListener('pointercancel', end);
  box.addEventListener('pointerleave', () => showCursor(-1));
  box.addEventListener('dblclick', event => isInside(at(event)) && showAll());
  box.addEventListener('wheel', event => onWheel(event, area(), at(event)), {passive: false});
}

function moved(box, area, gesture, points) {
  const [from, to] = gesture.view, share = (to - from) / area.w;
  if (points.length > 1) {
    const [a, b] = gesture.points.map(it => it.x), [c, d] = points.map(it => it.x);
    const by = Math.abs(a - b) / Math.max(10, Math.abs(c - d));
    const center = from + ((a + b) / 2 - area.x) * share;
    const start = center - ((c + d) / 2 - area.x) * share * by;
    gesture.isMoved = true;
    show(start, start + (to - from) * by);
    return;
  }
  const by = points[0].x - gesture.begin.x;
  if (Math.abs(by) >= CLICK) gesture.isMoved = true;
  if (!gesture.isMoved) return;
  if (gesture.pans) show(from - by * share, to - by * share);
  else showRubber(box, area, gesture.begin.x, points[0].x);
}

function ended(name, area, gesture, point) {
  if (!gesture.isMoved) {
    const place = nearest(name, point.x, point.y);
    if (place >= 0) select(place);
    return;
  }
  if (gesture.pans) return;
  const share = (view.to - view.from) / area.w;
  const [low, high] = [gesture.begin.x, point.x].map(x =>
    view.from + (Math.max(area.x, Math.min(area.x + area.w, x)) - area.x) * share)
    .sort((a, b) => a - b);
  if (high > low) show(low, high);
}

function showRubber(box, area, from, to) {
  const rubber = box.querySelector('.rubber') || box.appendChild(element('div', '', 'rubber'));
  rubber.hidden = false;
  rubber.style.left = `${Math.max(area.x, Math.min(from, to))}px`;
  rubber.style.width = `${Math.abs(to - from)}px`;
  rubber.style.top = `${area.y}px`;
  rubber.style.height = `${area.h}px`;
}

function hideRubber(box) {
  const rubber = box.querySelector('.rubber');
  if (rubber) rubber.hidden = true;
}

// With control the wheel zooms; to the side, or with shift, it pans. Else the page scrolls.
function onWheel(event, area, point) {
  const isAside = event.shiftKey || Math.abs(event.deltaX) > Math.abs(event.deltaY);
  if (!event.ctrlKey && !event.metaKey && !isAside) return;
  event.preventDefault();
  showCursor(-1);
  if (isAside) pan((event.deltaX || event.deltaY) / area.w);
  else {
    const x = view.from + (point.x - area.x) / area.w * (view.to - view.from);
    zoom(event.deltaY > 0 ? STEP : 1 / STEP, x);
  }
}
