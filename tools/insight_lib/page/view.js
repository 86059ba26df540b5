"use strict";

// The large canvas: a row for each instruction, a column for each cycle.

const HEAD_HEIGHT = 20;
const LOW_LEFT = 132; // the width of the left side where rows are too low for text
const LEAST_USUAL_WIDTH = 15; // of a cycle
const MOST_USUAL_WIDTH = 28;
const USUAL_SHARE = 0.75; // of the picture's width, for the cycles of the rows in view
const USUAL_HEIGHT = 17; // of a row
const MOST_CYCLE_WIDTH = 48;
const MOST_ROW_HEIGHT = 22;
const TEXT_HEIGHT = 9;
const LEAST_REACH = 2; // the width of a line of pixels that stands for many instructions
const DENSE_MARKS = 8; // how much stronger a mark is drawn than its share of the instructions
const MONO = "ui-monospace, 'DejaVu Sans Mono', Menlo, Consolas, monospace";
const STAGES = {
  F: ["#9ec5fe", "in the front end"],
  Q: ["#ffd166", "waits in the window"],
  D: ["#ffd166", "in Decode"],
  X: ["#52b788", "executes"],
  A: ["#8fd0c9", "in Memory"],
  M: ["#ef6f6c", "misses the data cache"],
  C: ["#cdb4db", "done, waits to leave"],
  W: ["#cdb4db", "in Write"],
};
const OTHER_STAGES = ["#7cb5ec", "#f7a35c", "#90ed7d", "#e4d354", "#f15c80", "#b08d57"];
const GREY = "#8b949e";
const MARK_COLOURS = { mispredicted: "#d1242f", trap: "#8250df", dcache: "#ef6f6c", icache: "#bc6c00" };
const REGISTERS = (
  "zero ra sp gp tp t0 t1 t2 s0 s1 a0 a1 a2 a3 a4 a5 a6 a7 s2 s3 s4 s5 s6 s7 s8 s9 s10 s11 t3 t4 t5 t6"
).split(" ");

function stageColour(name) {
  if (!STAGES[name]) STAGES[name] = [OTHER_STAGES[Object.keys(STAGES).length % OTHER_STAGES.length], ""];
  return STAGES[name][0];
}

class View {
  constructor(canvas, trace) {
    this.canvas = canvas;
    this.trace = trace;
    this.pen = canvas.getContext("2d", { alpha: false });
    this.cycleWidth = LEAST_USUAL_WIDTH;
    this.rowHeight = USUAL_HEIGHT;
    this.x = trace.begin; // the cycle at the left edge
    this.y = 0; // the place at the top
    this.selected = -1;
    this.measured = -1;
    this.hover = null;
    this.hits = new Set();
    this.arrows = "all";
    this.namesAbi = false;
    this.isNamed = false; // whether its title stands in its corner
    this.hide(false);
    this.readColours();
  }

  // Which rows are shown, and at which places.
  hide(squashed) {
    this.hidesSquashed = squashed;
    const { count, fate } = this.trace;
    this.place = new Int32Array(count);
    const rows = new Int32Array(count);
    let shown = 0;
    for (let row = 0; row < count; row++) {
      this.place[row] = shown;
      if (!squashed || fate[row] !== SQUASHED) rows[shown++] = row;
      else this.place[row] = -1;
    }
    this.rows = rows.subarray(0, shown);
  }

  readColours() {
    const style = getComputedStyle(document.documentElement);
    this.colours = {};
    for (const name of ["back", "text", "dim", "line", "panel", "accent", "hit"]) {
      this.colours[name] = style.getPropertyValue(`--${name}`).trim();
    }
  }

  resize() {
    const ratio = window.devicePixelRatio || 1;
    this.width = this.canvas.clientWidth;
    this.height = this.canvas.clientHeight;
    this.canvas.width = Math.round(this.width * ratio);
    this.canvas.height = Math.round(this.height * ratio);
    this.pen.setTransform(ratio, 0, 0, ratio, 0, 0);
  }

  get hasText() {
    return this.rowHeight >= TEXT_HEIGHT;
  }

  get left() {
    return this.hasText ? this.textLeft : LOW_LEFT;
  }

  // The width of the left side where it has text.
  get textLeft() {
    return this.trace.functions.length > 0 ? 372 : 276;
  }

  get rowsShown() {
    return (this.height - HEAD_HEIGHT) / this.rowHeight;
  }

  get cyclesShown() {
    return (this.width - this.left) / this.cycleWidth;
  }

  xOf(cycle) {
    return this.left + (cycle - this.x) * this.cycleWidth;
  }

  yOf(place) {
    return HEAD_HEIGHT + (place - this.y) * this.rowHeight;
  }

  cycleAt(x) {
    return Math.floor(this.x + (x - this.left) / this.cycleWidth);
  }

  rowAt(y) {
    const place = Math.floor(this.y + (y - HEAD_HEIGHT) / this.rowHeight);
    return y >= HEAD_HEIGHT && place >= 0 && place < this.rows.length ? this.rows[place] : -1;
  }

  get topRow() {
    const place = Math.max(0, Math.min(this.rows.length - 1, Math.floor(this.y)));
    return this.rows.length > 0 ? this.rows[place] : -1;
  }

  get bottomRow() {
    const place = Math.max(0, Math.min(this.rows.length - 1, Math.floor(this.y + this.rowsShown)));
    return this.rows.length > 0 ? this.rows[place] : -1;
  }

  clamp() {
    this.y = Math.max(0, Math.min(this.y, Math.max(0, this.rows.length - this.rowsShown * 0.6)));
    this.x = Math.max(this.trace.begin - this.cyclesShown / 2, Math.min(this.x, this.trace.end));
  }

  // Goes to a place with the diagonal in view.
  moveTo(place) {
    this.y = place;
    this.clamp();
    this.follow();
  }

  // Moves the cycles so that the diagonal of the rows in view is in view.
  follow() {
    if (this.topRow < 0) return;
    const { first } = this.trace;
    const part = this.y - Math.floor(this.y);
    const top = first[this.topRow];
    const next = this.rows[Math.min(this.rows.length - 1, Math.floor(this.y) + 1)];
    this.x = top + (first[next] - top) * part - Math.min(6, this.cyclesShown / 12);
  }

  zoom(factor, x, y) {
    const cycle = this.x + (x - this.left) / this.cycleWidth;
    const place = this.y + (y - HEAD_HEIGHT) / this.rowHeight;
    this.setZoom(Math.max(this.leastWidth, Math.min(MOST_CYCLE_WIDTH, this.cycleWidth * factor)));
    this.x = cycle - (x - this.left) / this.cycleWidth;
    this.y = place - (y - HEAD_HEIGHT) / this.rowHeight;
    this.clamp();
  }

  // The height of a row with which all rows are in view.
  get leastHeight() {
    const tall = ((this.height - HEAD_HEIGHT) * 0.98) / Math.max(1, this.rows.length);
    return Math.min(USUAL_HEIGHT, tall);
  }

  // The width of a cycle with which the whole trace is in view.
  get leastWidth() {
    const usual = this.usualWidth;
    const across = ((this.width - LOW_LEFT) * 0.98) / Math.max(1, this.trace.end - this.trace.begin);
    return across < usual ? across : (usual * this.leastHeight) / USUAL_HEIGHT;
  }

  // The width of a cycle with which the rows in view fill most of the picture, if they can be read.
  get usualWidth() {
    const { count, begin, end, meanSpan } = this.trace;
    const rows = (this.height - HEAD_HEIGHT) / USUAL_HEIGHT;
    const cycles = (rows * (end - begin)) / Math.max(1, count) + meanSpan;
    const across = (USUAL_SHARE * (this.width - this.textLeft)) / Math.max(1, cycles);
    return Math.max(LEAST_USUAL_WIDTH, Math.min(MOST_USUAL_WIDTH, across));
  }

  get isWhole() {
    return this.cycleWidth <= this.leastWidth;
  }

  // Rows get lower with the cycles' width, from rows that can be read to the whole trace in one picture, so that the
  // diagonal stays in view.
  heightFor(cycleWidth) {
    const usual = this.usualWidth;
    const wider = cycleWidth - usual;
    if (wider >= 0) return Math.min(MOST_ROW_HEIGHT, USUAL_HEIGHT + wider * 0.15);
    const share = Math.log(cycleWidth / this.leastWidth) / Math.log(usual / this.leastWidth);
    return Math.min(USUAL_HEIGHT, Math.pow(USUAL_HEIGHT, share) * Math.pow(this.leastHeight, 1 - share));
  }

  setZoom(cycleWidth) {
    this.cycleWidth = cycleWidth;
    this.rowHeight = this.heightFor(cycleWidth);
  }

  showAll() {
    this.setZoom(this.leastWidth);
    this.x = this.trace.begin;
    this.y = 0;
  }

  // A row in view that is an instruction of the program: the first one, else the one before; -1 if there is none.
  anchor() {
    const top = Math.max(0, Math.min(this.rows.length - 1, Math.floor(this.y)));
    const end = Math.min(this.rows.length, Math.floor(this.y + this.rowsShown));
    const isKept = (place) => this.trace.fate[this.rows[place]] !== SQUASHED;
    for (let place = top; place < end; place++) if (isKept(place)) return this.rows[place];
    for (let place = top; place >= 0 && place < end; place--) if (isKept(place)) return this.rows[place];
    return -1;
  }

  // Shows of its own trace the part of the program that another view shows, at the same zoom.
  showAs(other) {
    this.cycleWidth = other.cycleWidth;
    this.rowHeight = other.rowHeight;
    const row = other.anchor();
    const own = row < 0 ? -1 : this.trace.rowOfNumber(other.trace.number[row]);
    if (own < 0) return;
    this.y = this.place[own] + other.y - other.place[row];
    this.x = this.trace.first[own] + other.x - other.trace.first[row];
    this.clamp();
  }

  // Brings a row into view.
  reveal(row) {
    if (row < 0) return;
    if (this.place[row] < 0) this.hide(false);
    const place = this.place[row];
    if (place < this.y + 1 || place > this.y + this.rowsShown - 3) this.y = Math.floor(place - this.rowsShown / 3);
    this.clamp();
    const from = this.xOf(this.trace.first[row]);
    const to = this.xOf(this.trace.last[row]);
    if (from < this.left + 20 || to > this.width - 60) {
      this.x = this.trace.first[row] - Math.max(2, this.cyclesShown / 4);
    }
  }

  draw() {
    const { pen, colours, width, height } = this;
    pen.fillStyle = colours.back;
    pen.fillRect(0, 0, width, height);
    this.#drawRuler();
    pen.save();
    pen.beginPath();
    pen.rect(0, HEAD_HEIGHT, width, height - HEAD_HEIGHT);
    pen.clip();
    const from = Math.max(0, Math.floor(this.y));
    const to = Math.min(this.rows.length, Math.ceil(this.y + this.rowsShown) + 1);
    if (this.rowHeight < 1) this.#drawDense();
    else for (let place = from; place < to; place++) this.#drawRow(this.rows[place]);
    this.#drawRelations(from, to);
    this.#drawSide(from, to);
    pen.restore();
    this.#drawPointer();
  }

  #drawRuler() {
    const { pen, colours, width, height, cycleWidth } = this;
    const step = rulerStep(80 / cycleWidth);
    pen.font = `11px ${MONO}`;
    pen.textBaseline = "middle";
    pen.fillStyle = colours.accent;
    if (this.isNamed) pen.fillText(this.trace.title, 6, HEAD_HEIGHT / 2);
    for (let cycle = Math.ceil(this.x / step) * step; this.xOf(cycle) < width; cycle += step) {
      if (cycle < this.trace.begin || cycle > this.trace.end) continue;
      const x = Math.round(this.xOf(cycle));
      pen.fillStyle = colours.line;
      pen.fillRect(x, HEAD_HEIGHT - 4, 1, height);
      pen.fillStyle = colours.dim;
      const text = String(cycle);
      if (x + 3 + pen.measureText(text).width < width) pen.fillText(text, x + 3, HEAD_HEIGHT / 2);
    }
  }

  #drawRow(row) {
    const { pen, colours, trace, rowHeight, left, width } = this;
    const y = this.yOf(this.place[row]);
    if (row === this.selected || row === this.measured || this.hits.has(row)) {
      pen.fillStyle = this.hits.has(row) && row !== this.selected ? colours.hit : colours.accent;
      pen.globalAlpha = 0.2;
      pen.fillRect(0, y, width, rowHeight);
      pen.globalAlpha = 1;
    }
    if (this.xOf(trace.last[row]) > left && this.xOf(trace.first[row]) < width) {
      this.#drawStages(row, y);
      this.#drawMarks(row, y);
    } else this.#drawPointerTo(row, y);
  }

  #drawStages(row, y) {
    const { pen, trace, rowHeight, left, width } = this;
    const isSquashed = trace.fate[row] === SQUASHED;
    const gap = this.cycleWidth > 5 && rowHeight > 5 ? 1 : 0;
    const tall = Math.max(rowHeight - 2 * gap, 1);
    const { offsets, names } = trace.shape(row);
    const first = trace.first[row];
    for (let at = 0; at < names.length; at++) {
      const to = at + 1 < names.length ? first + offsets[at + 1] : trace.last[row];
      const a = Math.max(left, this.xOf(first + offsets[at]));
      const b = Math.min(width, this.xOf(to));
      if (b <= a) continue;
      const across = Math.max(b - a - gap, 0.8);
      pen.globalAlpha = isSquashed ? 0.3 : 1;
      pen.fillStyle = isSquashed ? GREY : stageColour(names[at]);
      pen.fillRect(a, y + gap, across, tall);
      pen.globalAlpha = 1;
      if (isSquashed && rowHeight > 5) {
        pen.fillStyle = stageColour(names[at]);
        pen.fillRect(a, y + rowHeight - 4, across, 2);
      }
      if (this.cycleWidth >= 8 && rowHeight >= 12 && b - a > 7) {
        this.#drawStageText(names[at], to - first - offsets[at], a, b, y, isSquashed);
      }
    }
    if (trace.fate[row] === LEFT && gap > 0) this.#drawEnd(row, y);
  }

  #drawStageText(name, cycles, a, b, y, isSquashed) {
    const { pen, colours, rowHeight } = this;
    pen.fillStyle = isSquashed ? colours.dim : "#1b1f24";
    pen.font = `11px ${MONO}`;
    const text = cycles > 2 && b - a > 32 ? `${name} ${cycles}` : name;
    pen.fillText(text, a + 3, y + rowHeight / 2 + 0.5);
  }

  #drawEnd(row, y) {
    const x = this.xOf(this.trace.last[row]);
    if (x <= this.left || x >= this.width) return;
    this.pen.fillStyle = this.colours.text;
    this.pen.fillRect(x - 2, y + 2, 2, this.rowHeight - 4);
  }

  #drawMarks(row, y) {
    const { trace } = this;
    if (trace.marks[row] === 0) return;
    if (trace.has(row, MARKS.mispredicted)) this.#drawMark(trace.given(row), y, MARK_COLOURS.mispredicted);
    if (trace.has(row, MARKS.trap)) this.#drawMark(trace.last[row], y, MARK_COLOURS.trap);
    if (trace.has(row, MARKS.icache)) this.#drawMark(trace.first[row], y, MARK_COLOURS.icache);
    if (trace.has(row, MARKS.dcache) && this.rowHeight < 5) this.#drawMark(trace.executes(row), y, MARK_COLOURS.dcache);
  }

  #drawMark(cycle, y, colour) {
    const { pen, rowHeight } = this;
    const x = this.xOf(cycle);
    if (x < this.left || x > this.width) return;
    pen.fillStyle = colour;
    if (this.cycleWidth > 5 && rowHeight > 7) {
      pen.beginPath();
      pen.moveTo(x - 5, y);
      pen.lineTo(x + 5, y);
      pen.lineTo(x, y + 7);
      pen.fill();
      pen.fillRect(x - 1, y, 2, rowHeight);
    } else pen.fillRect(x - 1, y, 2, Math.max(rowHeight, 1.5));
  }

  // Where a row in view stands left or right of it, so that the diagonal is found again.
  #drawPointerTo(row, y) {
    if (!this.hasText) return;
    const { pen, colours } = this;
    const isLeft = this.xOf(this.trace.last[row]) <= this.left;
    pen.fillStyle = colours.dim;
    pen.font = `11px ${MONO}`;
    pen.fillText(isLeft ? "\u2190" : "\u2192", isLeft ? this.left + 2 : this.width - 14, y + this.rowHeight / 2);
  }

  // More instructions than pixels: each line of pixels shows the reach of its instructions.
  #drawDense() {
    const { pen, trace, rows, height } = this;
    for (let line = HEAD_HEIGHT; line < height; line++) {
      const from = Math.max(0, Math.floor(this.y + (line - HEAD_HEIGHT) / this.rowHeight));
      if (from >= rows.length) break;
      const end = Math.floor(this.y + (line + 1 - HEAD_HEIGHT) / this.rowHeight);
      const to = Math.max(from + 1, Math.min(rows.length, end));
      const reach = reachOf(trace, rows, from, to);
      this.#drawReach(reach.squashedFirst, reach.squashedLast, line, GREY, 0.45);
      this.#drawReach(reach.first, reach.last, line, STAGES.X[0], 1);
      for (const [name, { count, at }] of Object.entries(reach.marks)) {
        pen.globalAlpha = Math.min(1, DENSE_MARKS * (count / (to - from)));
        pen.fillStyle = MARK_COLOURS[name];
        pen.fillRect(this.xOf(at), line, 2, 1);
      }
      pen.globalAlpha = 1;
    }
  }

  #drawReach(first, last, line, colour, alpha) {
    if (last < first) return;
    const a = Math.max(this.left, this.xOf(first));
    const b = Math.min(this.width, Math.max(this.xOf(last), a + LEAST_REACH));
    if (b <= a) return;
    this.pen.globalAlpha = alpha;
    this.pen.fillStyle = colour;
    this.pen.fillRect(a, line, b - a, 1);
    this.pen.globalAlpha = 1;
  }

  // Who waited for whom, and from where fetch went on after a misprediction.
  #drawRelations(from, to) {
    const { trace, selected } = this;
    const { pen } = this;
    pen.save();
    pen.beginPath();
    pen.rect(this.left, HEAD_HEIGHT, this.width, this.height);
    pen.clip();
    if (this.rowHeight >= 10) {
      for (let place = from; place < to; place++) {
        const row = this.rows[place];
        if (this.arrows === "all") for (const one of trace.producers[row]) this.#drawArrow(one, row, 0.28, false);
        if (trace.has(row, MARKS.mispredicted)) this.#drawRedirect(row);
      }
    }
    if (selected >= 0 && this.arrows !== "none") {
      for (const one of trace.producers[selected]) this.#drawArrow(one, selected, 1, true);
      for (const one of trace.consumers.get(selected) || []) this.#drawArrow(selected, one, 0.8, true);
      let later = selected;
      for (const one of trace.chain(selected, 64)) {
        this.#drawArrow(one, later, 1, true);
        later = one;
      }
    }
    pen.restore();
  }

  #drawArrow(producer, row, alpha, isStrong) {
    const { pen, colours, place, trace } = this;
    if (place[producer] < 0 || place[row] < 0) return;
    const begin = trace.executes(row);
    const given = trace.given(producer);
    if (begin < 0 || given < 0) return;
    const xa = this.xOf(given);
    const ya = this.yOf(place[producer] + 0.5);
    const xb = this.xOf(begin) + 2;
    const yb = this.yOf(place[row] + 0.5);
    if (yb < HEAD_HEIGHT || ya > this.height || xb < this.left || xa > this.width) return;
    pen.globalAlpha = trace.fate[row] === SQUASHED ? alpha * 0.4 : alpha;
    pen.strokeStyle = pen.fillStyle = isStrong ? colours.accent : colours.text;
    pen.lineWidth = isStrong ? 1.8 : 0.8;
    const bend = Math.max(4, this.cycleWidth * 0.6);
    pen.beginPath();
    pen.moveTo(xa, ya);
    pen.bezierCurveTo(xa + bend, ya, xb - bend, yb, xb, yb);
    pen.stroke();
    pen.beginPath();
    pen.moveTo(xb, yb);
    pen.lineTo(xb - 5, yb - 3);
    pen.lineTo(xb - 5, yb + 3);
    pen.fill();
    pen.globalAlpha = 1;
  }

  #drawRedirect(row) {
    const { pen, trace, place } = this;
    const { next } = trace.squashedAfter(row);
    if (next < 0 || place[next] < 0) return;
    const x = this.xOf(trace.given(row));
    const xb = this.xOf(trace.first[next]);
    pen.strokeStyle = MARK_COLOURS.mispredicted;
    pen.globalAlpha = 0.7;
    pen.lineWidth = 1;
    pen.setLineDash([4, 3]);
    pen.beginPath();
    pen.moveTo(x, this.yOf(place[row]) + 7);
    pen.lineTo(x, this.yOf(place[next] + 0.5));
    pen.lineTo(xb, this.yOf(place[next] + 0.5));
    pen.stroke();
    pen.setLineDash([]);
    pen.globalAlpha = 1;
  }

  shown(row) {
    const text = this.trace.text(row);
    if (!this.namesAbi) return text;
    return text.replace(/\bx([12]?\d|3[01])\b/g, (_, number) => REGISTERS[Number(number)]);
  }

  #drawSide(from, to) {
    const { pen, colours, left, height } = this;
    pen.fillStyle = colours.panel;
    pen.fillRect(0, HEAD_HEIGHT, left - 6, height);
    pen.fillStyle = colours.line;
    pen.fillRect(left - 6, HEAD_HEIGHT, 1, height);
    pen.font = `12px ${MONO}`;
    pen.textBaseline = "middle";
    if (this.hasText) for (let place = from; place < to; place++) this.#drawLabel(place, place === from);
    else this.#drawFunctions();
  }

  #drawLabel(place, isFirst) {
    const { pen, colours, trace, rowHeight, left } = this;
    const row = this.rows[place];
    const y = this.yOf(place);
    if (row === this.selected || (this.hover && this.hover.row === row)) {
      pen.globalAlpha = row === this.selected ? 0.25 : 0.1;
      pen.fillStyle = colours.accent;
      pen.fillRect(0, y, left - 6, rowHeight);
      pen.globalAlpha = 1;
    }
    let x = 6;
    if (trace.functions.length > 0) {
      const name = trace.functionOf(row);
      const before = place > 0 && !isFirst ? trace.functionOf(this.rows[place - 1]) : "";
      if (name !== before) this.#drawClipped(name, colours.accent, x, y, 92);
      x += 98;
    }
    const [, address, text] = /^([0-9a-f]{8}): \S+ (.*)$/.exec(this.shown(row)) || [null, "", this.shown(row)];
    this.#drawClipped(address, colours.dim, x, y, 64);
    const isGone = trace.fate[row] === SQUASHED;
    this.#drawClipped(text, isGone ? colours.dim : colours.text, x + 70, y, left - x - 80);
  }

  #drawClipped(text, colour, x, y, across) {
    const { pen, rowHeight } = this;
    pen.fillStyle = colour;
    pen.font = `${Math.min(12, rowHeight - 1)}px ${MONO}`;
    const letters = Math.floor(across / (Math.min(12, rowHeight - 1) * 0.602));
    const shown = text.length > letters ? `${text.slice(0, Math.max(0, letters - 1))}\u2026` : text;
    pen.fillText(shown, x, y + rowHeight / 2 + 0.5);
  }

  // Where rows are too low for text: the functions that begin, or the rows' numbers.
  #drawFunctions() {
    const { pen, colours, trace } = this;
    let last = null;
    for (let y = HEAD_HEIGHT + 8; y < this.height; y += 14) {
      let row = this.rowAt(y);
      if (row < 0) break;
      while (row > 0 && trace.fate[row] === SQUASHED) row--;
      const name = trace.functions.length > 0 ? trace.functionOf(row) : `#${trace.number[row]}`;
      if (name === last) continue;
      last = name;
      pen.fillStyle = trace.functions.length > 0 ? colours.accent : colours.dim;
      pen.font = `11px ${MONO}`;
      pen.fillText(name.length > 17 ? `${name.slice(0, 16)}\u2026` : name, 6, y);
    }
  }

  #drawPointer() {
    const { pen, colours, hover } = this;
    if (!hover || hover.cycle < this.x) return;
    const x = this.xOf(hover.cycle);
    pen.globalAlpha = 0.12;
    pen.fillStyle = colours.accent;
    pen.fillRect(x, HEAD_HEIGHT, Math.max(1, this.cycleWidth), this.height);
    pen.globalAlpha = 1;
    pen.font = `11px ${MONO}`;
    const text = String(hover.cycle);
    pen.fillStyle = colours.accent;
    pen.fillRect(x - 2, 1, text.length * 7 + 8, HEAD_HEIGHT - 4);
    pen.fillStyle = colours.back;
    pen.fillText(text, x + 2, HEAD_HEIGHT / 2);
  }
}

function rulerStep(least) {
  let power = 1;
  while (power * 10 < least) power *= 10;
  return [1, 2, 5, 10].map((part) => part * power).find((step) => step >= least);
}

// The cycles that some rows reach over, squashed ones apart, and their marks.
function reachOf(trace, rows, from, to) {
  const reach = { first: Infinity, last: -1, squashedFirst: Infinity, squashedLast: -1, marks: {} };
  for (let place = from; place < to; place++) {
    const row = rows[place];
    if (trace.fate[row] === SQUASHED) {
      if (trace.first[row] < reach.squashedFirst) reach.squashedFirst = trace.first[row];
      if (trace.last[row] > reach.squashedLast) reach.squashedLast = trace.last[row];
    } else {
      if (trace.first[row] < reach.first) reach.first = trace.first[row];
      if (trace.last[row] > reach.last) reach.last = trace.last[row];
    }
    if (trace.marks[row] === 0) continue;
    for (const name of Object.keys(MARKS)) {
      if (!trace.has(row, MARKS[name])) continue;
      reach.marks[name] ||= { count: 0, at: trace.last[row] };
      reach.marks[name].count++;
    }
  }
  return reach;
}
