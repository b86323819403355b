// Colours, shapes and dashes; each thing has a shape of its own beside its colour.

const TONES = [
  'paper', 'ink', 'soft', 'line', 'initial', 'handshake', 'app', 'lost', 'timer', 'refused',
  'shade', 'veil', 'flight', 'least', 'latest', 'faint',
];
const FONT = '12px system-ui, "DejaVu Sans", sans-serif';
const DASHES = {
  pto: [3, 2], loss: [1, 2], discard: [6, 3, 1, 3], confirmed: [2, 4], keys: [2, 4],
  ssthresh: [7, 4], least: [7, 4], lossDelay: [2, 2], timeout: [9, 3, 2, 3],
  departed: [5, 2],
};
const colors = {};

function readColors() {
  const style = getComputedStyle(document.documentElement);
  for (const name of TONES) colors[name] = style.getPropertyValue('--' + name).trim();
}

const toneOfMark = of => of === 'pto' || of === 'loss' ? colors.timer : colors.soft;
const toneOfSpace = (space, isJudged) => isJudged ? colors[SPACES[space]] : colors.soft;

// Strokes what a function puts into a path.
function stroked(context, color, width, dashes, path, alpha = 1) {
  context.beginPath();
  path(context);
  context.strokeStyle = color;
  context.lineWidth = width;
  context.globalAlpha = alpha;
  context.setLineDash(dashes);
  context.stroke();
  context.setLineDash([]);
  context.globalAlpha = 1;
}

function upright(context, area, x, color, width, dashes, alpha) {
  stroked(context, color, width, dashes, () => {
    context.moveTo(x, area.y);
    context.lineTo(x, area.y + area.h);
  }, alpha);
}

// A packet by its space: triangle, square, circle.
function glyph(context, space, x, y, r) {
  if (space === 0) {
    context.moveTo(x, y - r * 1.2);
    context.lineTo(x + r * 1.1, y + r * 0.8);
    context.lineTo(x - r * 1.1, y + r * 0.8);
    context.closePath();
  } else if (space === 1) context.rect(x - r * 0.9, y - r * 0.9, r * 1.8, r * 1.8);
  else {
    context.moveTo(x + r, y);
    context.arc(x, y, r, 0, 2 * Math.PI);
  }
}

function diamond(context, x, y, r) {
  context.moveTo(x, y - r);
  context.lineTo(x + r, y);
  context.lineTo(x, y + r);
  context.lineTo(x - r, y);
  context.closePath();
}

function cross(context, x, y, r) {
  context.moveTo(x - r, y - r);
  context.lineTo(x + r, y + r);
  context.moveTo(x + r, y - r);
  context.lineTo(x - r, y + r);
}

function triangle(context, x, y, r) {
  context.moveTo(x, y - r);
  context.lineTo(x + r, y + r);
  context.lineTo(x - r, y + r);
  context.closePath();
}

function words(context, text, x, y, color, align = 'left', baseline = 'middle', font = FONT) {
  context.font = font;
  context.textAlign = align;
  context.textBaseline = baseline;
  context.fillStyle = color;
  context.fillText(text, x, y);
}

// A ground for words that stand over lines.
function backed(context, left, top, width, height) {
  context.globalAlpha = 0.85;
  context.fillStyle = colors.paper;
  context.fillRect(left, top, width, height);
  context.globalAlpha = 1;
}

// Whether a point falls where none was before; points of a cell count as one.
function cells(area, grain) {
  const wide = Math.ceil(area.w / grain) + 3;
  const taken = new Uint8Array(wide * (Math.ceil(area.h / grain) + 3));
  return (x, y) => {
    const row = Math.floor((y - area.y) / grain) + 1;
    const column = Math.floor((x - area.x) / grain) + 1, cell = row * wide + column;
    if (column < 0 || column >= wide || cell < 0 || cell >= taken.length) return false;
    if (taken[cell]) return false;
    taken[cell] = 1;
    return true;
  };
}

// Hatches what was not judged.
function hatched(context, left, top, width, height, anchor) {
  context.fillStyle = colors.shade;
  context.fillRect(left, top, width, height);
  context.save();
  context.beginPath();
  context.rect(left, top, width, height);
  context.clip();
  stroked(context, colors.shade, 1, [], () => {
    for (let x = anchor - height; x < left + width; x += 9) {
      context.moveTo(x, top + height);
      context.lineTo(x + height, top);
    }
  });
  context.restore();
}
