"use strict";

// The strip above: over all cycles of the trace, how many instructions left and how many were squashed in a cycle.

const BAR_WIDTH = 3;
const LEAST_CYCLES = 4; // of a bar
const STRIP_HEAD = 15;
const STRIP_FOOT = 13;
const MARK_LINES = { mispredicted: 1, dcache: 5, icache: 9 }; // below the bars
const LEAST_ALPHA = 0.3; // of a bar's mark; the bar with the most has 1

class Strip {
  constructor(canvas, view) {
    this.canvas = canvas;
    this.view = view;
    this.trace = view.trace;
    this.pen = canvas.getContext("2d", { alpha: false });
    this.back = document.createElement("canvas");
  }

  get span() {
    return Math.max(1, this.trace.end - this.trace.begin);
  }

  resize() {
    const ratio = window.devicePixelRatio || 1;
    this.width = this.canvas.clientWidth;
    this.height = this.canvas.clientHeight;
    for (const canvas of [this.canvas, this.back]) {
      canvas.width = Math.round(this.width * ratio);
      canvas.height = Math.round(this.height * ratio);
      canvas.getContext("2d").setTransform(ratio, 0, 0, ratio, 0, 0);
    }
    this.paint();
  }

  xOf(cycle) {
    return ((cycle - this.trace.begin) / this.span) * this.width;
  }

  cycleAt(x) {
    return Math.floor(this.trace.begin + (x / this.width) * this.span);
  }

  // How many instructions left, were squashed, or have a mark, in each bar's cycles.
  bars() {
    const { trace } = this;
    const cycles = Math.max(LEAST_CYCLES, Math.ceil((this.span * BAR_WIDTH) / this.width));
    const count = Math.ceil(this.span / cycles);
    const bars = { cycles };
    for (const name of ["left", "squashed", ...Object.keys(MARKS)]) bars[name] = new Float64Array(count);
    for (let row = 0; row < trace.count; row++) {
      const bar = Math.min(count - 1, Math.floor((trace.last[row] - trace.begin) / cycles));
      if (trace.fate[row] !== OPEN) (trace.fate[row] === LEFT ? bars.left : bars.squashed)[bar]++;
      if (trace.marks[row] === 0) continue;
      for (const name of Object.keys(MARKS)) if (trace.has(row, MARKS[name])) bars[name][bar]++;
    }
    return bars;
  }

  // Paints what doesn't change with the view.
  paint() {
    const pen = this.back.getContext("2d");
    const { colours } = this.view;
    const bars = this.bars();
    const { cycles, left, squashed } = bars;
    pen.fillStyle = colours.back;
    pen.fillRect(0, 0, this.width, this.height);
    const most = left.reduce((top, count, bar) => Math.max(top, count + squashed[bar]), 1e-9);
    const across = (this.width * cycles) / this.span;
    const foot = this.height - STRIP_FOOT;
    const scale = (foot - STRIP_HEAD) / most;
    const wide = Math.max(across - (across > 4 ? 1 : 0), 1);
    left.forEach((count, bar) => {
      const all = count + squashed[bar];
      pen.fillStyle = STAGES.X[0];
      pen.fillRect(bar * across, foot - count * scale, wide, count * scale);
      pen.fillStyle = `${GREY}66`;
      pen.fillRect(bar * across, foot - all * scale, wide, squashed[bar] * scale);
    });
    for (const name of Object.keys(MARK_LINES)) this.#paintMarks(pen, bars[name], name, foot, across, wide);
    pen.fillStyle = colours.dim;
    pen.font = "11px system-ui, sans-serif";
    pen.textBaseline = "top";
    const at = `a bar for ${cycles} cycles: at most ${(most / cycles).toFixed(2)} in all`;
    pen.fillText(`left (green) and squashed (grey) in a cycle, ${at}`, 6, 2);
  }

  // Paints how often each bar's cycles have a mark.
  #paintMarks(pen, counts, name, foot, across, wide) {
    const most = counts.reduce((top, count) => Math.max(top, count), 0);
    pen.fillStyle = MARK_COLOURS[name];
    counts.forEach((count, bar) => {
      if (count === 0) return;
      pen.globalAlpha = LEAST_ALPHA + ((1 - LEAST_ALPHA) * count) / most;
      pen.fillRect(bar * across, foot + MARK_LINES[name], wide, 3);
    });
    pen.globalAlpha = 1;
  }

  draw() {
    const { pen, trace, view } = this;
    pen.drawImage(this.back, 0, 0, this.width, this.height);
    pen.fillStyle = view.colours.accent;
    for (const row of view.hits) pen.fillRect(this.xOf(trace.first[row]), STRIP_HEAD, 1, 5);
    if (view.topRow < 0) return;
    const from = this.xOf(trace.first[view.topRow]);
    const to = this.xOf(trace.last[view.bottomRow]);
    const wide = Math.max(3, to - from);
    const tall = this.height - STRIP_HEAD;
    pen.globalAlpha = view.isWhole ? 0 : 0.18;
    pen.fillRect(from, STRIP_HEAD, wide, tall);
    pen.globalAlpha = 1;
    pen.strokeStyle = view.colours.accent;
    pen.strokeRect(from + 0.5, STRIP_HEAD + 0.5, wide - 1, tall - 1);
  }
}
