"use strict";

// For the self-test: uses the page as a user does, and writes what came of it into the page.

function keyDown(key, target = window) {
  target.dispatchEvent(new KeyboardEvent("keydown", { key, bubbles: true, cancelable: true }));
}

function turnWheel(deltaY, more = {}) {
  const at = { clientX: 700, clientY: 400, bubbles: true, cancelable: true };
  $("rows").dispatchEvent(new WheelEvent("wheel", { deltaY, ...at, ...more }));
}

function clickRow(place, more = {}) {
  const box = $("rows").getBoundingClientRect();
  const at = { clientX: box.left + 200, clientY: box.top + page.view.yOf(place + 0.5), bubbles: true, ...more };
  $("rows").dispatchEvent(new MouseEvent("mousedown", at));
  $("rows").dispatchEvent(new MouseEvent("mouseup", at));
}

function search(text) {
  $("find").value = text;
  $("find").dispatchEvent(new Event("input"));
  return page.found.length;
}

// Whether the instruction at the top is seen in its own columns.
function isDiagonalSeen() {
  const { view, trace } = page;
  return view.xOf(trace.last[view.topRow]) > view.left && view.xOf(trace.first[view.topRow]) < view.width;
}

// How long a picture takes, the best of some rounds, since other programs may be at work too.
function leastMilliseconds(rounds) {
  return Math.min(...Array.from({ length: rounds }, () => milliseconds(10)));
}

// How long a picture takes, copied and read in the end so that all are really drawn.
function milliseconds(times) {
  const { view } = page;
  const copy = document.createElement("canvas").getContext("2d", { willReadFrequently: true });
  const began = performance.now();
  for (let time = 0; time < times; time++) {
    view.moveTo((view.rows.length * (time + 0.5)) / times);
    page.draw();
  }
  copy.drawImage(view.canvas, 0, 0);
  copy.getImageData(0, 0, 1, 1);
  return (performance.now() - began) / times;
}

// What is there before anything was done.
function checkStart() {
  const { trace } = page;
  const countOf = (mark) => rowsWhere(trace, (row) => trace.has(row, mark)).length;
  return {
    counts: trace.counts,
    fetched: trace.count,
    cycles: [trace.begin, trace.end],
    head: $("counts").textContent,
    summary: $("about").textContent,
    marks: Object.fromEntries(Object.entries(MARKS).map(([name, mark]) => [name, countOf(mark)])),
  };
}

function checkMoves() {
  const { view, trace } = page;
  const found = { wheel: [] };
  for (let turn = 0; turn < 20; turn++) {
    turnWheel(120);
    found.wheel.push([view.y, isDiagonalSeen()]);
  }
  const before = view.cycleWidth;
  turnWheel(-300, { ctrlKey: true });
  found.zoomedIn = view.cycleWidth > before;
  keyDown("0");
  page.draw();
  found.all = [view.yOf(view.rows.length) <= view.height, view.xOf(trace.end) <= view.width];
  found.widest = leastMilliseconds(4);
  keyDown("1");
  found.usual = leastMilliseconds(4);
  keyDown("Home");
  return found;
}

function checkPanel() {
  const { view, trace } = page;
  const found = {};
  clickRow(Math.min(3, trace.count - 1));
  found.selected = view.selected;
  found.about = $("about").textContent;
  clickRow(0, { shiftKey: true });
  found.measured = view.measured;
  keyDown("m");
  found.mispredicted = view.selected;
  found.aboutMispredicted = $("about").textContent;
  for (const key of ["d", "]", "[", "p", "j", "k", "a", "a", "a", "t", "t", "M", "D", "+", "-"]) keyDown(key);
  for (let row = 0; row < trace.count; row += Math.ceil(trace.count / 50)) page.select(row);
  keyDown("Escape");
  return found;
}

function checkSearch() {
  const { view } = page;
  const found = { searched: WANTED.map((text) => search(text)) };
  keyDown("Enter", $("find"));
  found.hit = view.selected;
  keyDown("h");
  found.shown = view.rows.length;
  keyDown("h");
  keyDown("r");
  found.abi = page.trace.count > 0 ? view.shown(0) : "";
  keyDown("?");
  found.keys = $("keys").open;
  return found;
}

// Whether two panes show the same part of the program, whichever of them is moved.
function checkPanes() {
  if (page.panes.length < 2) return {};
  $("keys").close();
  keyDown("Home");
  const found = { together: [] };
  const box = $("other").getBoundingClientRect();
  for (const canvas of [$("rows"), $("other"), $("rows")]) {
    const at = { clientX: box.left + 700, clientY: box.top + 100, bubbles: true, cancelable: true };
    canvas.dispatchEvent(new WheelEvent("wheel", { deltaY: 150, ...at }));
    page.draw();
    found.together.push([canvas === page.view.canvas, ...page.panes.map(({ view }) => view.y)]);
  }
  page.select(page.trace.rowOfNumber(page.trace.number[page.view.topRow]));
  found.both = page.panes.map(({ trace, view }) => trace.number[view.selected]);
  found.aboutBoth = $("about").textContent;
  return found;
}

const checked = { ...checkStart(), ...checkMoves(), ...checkPanel(), ...checkSearch(), ...checkPanes() };
document.body.append(element("pre", "", JSON.stringify(checked)));
document.body.lastChild.id = "checked";
