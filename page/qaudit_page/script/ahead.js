// Draws the whole run ahead, while nobody does anything: the functions that draw it take twice as
// long the first time. What was shown is drawn again before the browser shows anything.

// So long nothing was drawn before, and no key or button pressed, in milliseconds.
const AT_REST = 300;
// Each diagram draws these shares of the run one after another, so that none takes long.
const SHARES = [1 / 16, 1 / 4, 1];
let stepsAhead = null, restTimer = 0, actedAt = 0;

const whenIdle = window.requestIdleCallback?.bind(window) ?? (does => setTimeout(does));

// A run that was just drawn whole needs nothing more; what is left of another waits until nothing
// is done again.
function drawAheadLater() {
  const isWhole = view.from <= view.low && view.to >= view.high;
  const draws = [updatePackets, updateWindow, updateHeadroom, updateRtt];
  stepsAhead ??= SHARES.flatMap(share => draws.map(draw => ({share, draw})));
  if (isWhole) stepsAhead = [];
  actedAt = performance.now();
  clearTimeout(restTimer);
  if (stepsAhead.length) restTimer = setTimeout(() => whenIdle(drawAhead), AT_REST);
}

function drawAhead() {
  if (frameWanted || !stepsAhead.length || performance.now() - actedAt < AT_REST) return;
  const {share, draw} = stepsAhead.shift(), {from, to, low, high} = view;
  Object.assign(view, {from: high - (high - low) * share, to: high});
  draw();
  Object.assign(view, {from, to});
  draw();
  if (stepsAhead.length) restTimer = setTimeout(() => whenIdle(drawAhead));
}

for (const name of ['pointerdown', 'keydown', 'wheel'])
  addEventListener(name, () => stepsAhead && drawAheadLater(), {capture: true, passive: true});
