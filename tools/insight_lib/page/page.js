"use strict";

// The page: what keys, wheel, pointer and search do.

const $ = (id) => document.getElementById(id);

class Page {
  constructor(traces) {
    $("other").hidden = traces.length < 2;
    this.panes = traces.map((data, at) => this.#pane(data, $(at === 0 ? "rows" : "other")));
    if (traces.length > 1) {
      this.panes.forEach((pane, at) => (pane.panel.other = this.panes[1 - at].view));
      this.panes.forEach(({ view }) => (view.isNamed = true));
    }
    Object.assign(this, this.panes[0]);
    this.drag = null;
    this.isAsked = false;
    this.found = [];
    this.drawSeconds = 0;
    this.#fillHead();
    this.#listen();
    this.resize();
    this.view.setZoom(this.view.usualWidth);
    this.#readHash();
    this.panel.show();
    this.draw();
  }

  #pane(data, canvas) {
    const trace = new Trace(data);
    const view = new View(canvas, trace);
    const panel = new Panel($("about"), view, (row) => this.select(row));
    return { trace, view, panel, strip: new Strip($("strip"), view) };
  }

  // Makes the pane of a canvas the one that keys, search, strip and panel speak of.
  #use(canvas) {
    const pane = this.panes.find((one) => one.view.canvas === canvas);
    if (!pane || pane.view === this.view) return;
    Object.assign(this, pane);
    this.#fillCounts();
    this.#search();
    this.panel.show();
  }

  // Draws at once; the other pane shows the same part of the program.
  draw() {
    const began = performance.now();
    this.isAsked = false;
    for (const { view } of this.panes) {
      if (view !== this.view) view.showAs(this.view);
      view.draw();
    }
    this.strip.draw();
    this.drawSeconds = (performance.now() - began) / 1000;
  }

  // Draws with the next picture of the screen.
  ask() {
    if (this.isAsked) return;
    this.isAsked = true;
    requestAnimationFrame(() => this.draw());
    clearTimeout(this.hashTimer);
    this.hashTimer = setTimeout(() => this.#writeHash(), 400);
  }

  resize() {
    const { isWhole } = this.view;
    for (const { view, strip } of this.panes) {
      view.resize();
      view.readColours();
      strip.resize();
    }
    if (isWhole) this.view.showAll();
    this.ask();
  }

  select(row, isMeasuring = false) {
    const { view } = this;
    if (isMeasuring && view.selected >= 0) view.measured = view.selected;
    else if (row < 0) view.measured = -1;
    view.selected = row;
    view.reveal(row);
    for (const pane of this.panes) {
      if (pane.view.hidesSquashed !== view.hidesSquashed) pane.view.hide(view.hidesSquashed);
      if (pane.view !== view) pane.view.selected = this.#sameAs(row, pane.trace);
    }
    $("hide").checked = view.hidesSquashed;
    this.panel.show();
    this.ask();
  }

  // The row of another trace that is the same instruction of the program, or -1.
  #sameAs(row, other) {
    const { trace } = this;
    if (row < 0 || trace.fate[row] === SQUASHED) return -1;
    const found = other.rowOfNumber(trace.number[row]);
    return found >= 0 && other.number[found] === trace.number[row] ? found : -1;
  }

  goToCycle(cycle) {
    const { view, trace } = this;
    let row = trace.rowAtCycle(cycle);
    while (row > 0 && view.place[row] < 0) row--;
    view.moveTo(Math.max(0, Math.floor(view.place[row] - Math.min(3, view.rowsShown / 4))));
    this.ask();
  }

  #fillCounts() {
    const { trace } = this;
    $("title").textContent = trace.title;
    const counts = `${trace.count} fetched, ${trace.counts[LEFT]} left, ${trace.counts[SQUASHED]} squashed`;
    $("counts").textContent = `cycles ${trace.begin} to ${trace.end}: ${counts}`;
  }

  #fillHead() {
    this.#fillCounts();
    document.title = this.panes.map(({ trace }) => trace.title).join(", ");
    const names = new Set();
    for (const { trace } of this.panes) {
      for (const place of new Set(trace.stageTexts)) {
        for (const word of trace.texts[place].split(" ")) if (word !== "" && isNaN(word)) names.add(word);
      }
    }
    const known = Object.keys(STAGES).filter((name) => names.has(name));
    const others = [...names].filter((name) => !known.includes(name));
    for (const name of [...known, ...others]) this.#addKey(stageColour(name), `${name} ${STAGES[name][1]}`);
    this.#addKey(`${GREY}66`, "squashed");
    this.#addKey(MARK_COLOURS.mispredicted, "mispredicted");
    this.#addKey(MARK_COLOURS.trap, "trap");
    this.#addKey(MARK_COLOURS.icache, "icache miss before it");
  }

  #addKey(colour, text) {
    const mark = element("i", "colour");
    mark.style.background = colour;
    $("key").append(element("span", "", mark, ` ${text}`));
  }

  #listen() {
    for (const { view } of this.panes) {
      view.canvas.addEventListener("wheel", (event) => this.#wheel(event), { passive: false });
      view.canvas.addEventListener("mousedown", (event) => this.#grab(event));
      view.canvas.addEventListener("mouseleave", () => this.#point(null));
    }
    window.addEventListener("mousemove", (event) => this.#move(event));
    window.addEventListener("mouseup", (event) => this.#release(event));
    $("strip").addEventListener("mousedown", (event) => {
      this.drag = { isStrip: true };
      this.goToCycle(this.strip.cycleAt(event.offsetX));
    });
    window.addEventListener("keydown", (event) => this.#key(event));
    window.addEventListener("resize", () => this.resize());
    matchMedia("(prefers-color-scheme: dark)").addEventListener("change", () => this.resize());
    $("find").addEventListener("input", () => this.#search());
    $("next").onclick = () => this.#step(1);
    $("previous").onclick = () => this.#step(-1);
    $("hide").onchange = () => this.#hide($("hide").checked);
    $("abi").onchange = () => this.#useAbi($("abi").checked);
    $("in").onclick = () => this.#zoom(1.4);
    $("out").onclick = () => this.#zoom(1 / 1.4);
    $("all").onclick = () => this.#showAll();
    $("help").onclick = () => $("keys").showModal();
    $("keys").onclick = () => $("keys").close();
  }

  #wheel(event) {
    event.preventDefault();
    this.#use(event.target);
    const { view } = this;
    const unit = event.deltaMode === 1 ? 17 : event.deltaMode === 2 ? view.height : 1;
    const down = event.deltaY * unit;
    if (event.ctrlKey || event.metaKey) view.zoom(Math.exp(-down * 0.002), event.offsetX, event.offsetY);
    else if (event.shiftKey || Math.abs(event.deltaX) > Math.abs(event.deltaY)) {
      view.x += (event.deltaX * unit || down) / view.cycleWidth;
      view.clamp();
    } else view.moveTo(view.y + down / view.rowHeight / 1.5);
    this.ask();
  }

  #grab(event) {
    this.#use(event.target);
    const { view } = this;
    this.drag = { x: event.clientX, y: event.clientY, fromX: view.x, fromY: view.y, isMoved: false };
  }

  #move(event) {
    const { drag, view } = this;
    if (drag && drag.isStrip) {
      const box = $("strip").getBoundingClientRect();
      this.goToCycle(this.strip.cycleAt(event.clientX - box.left));
    } else if (drag) {
      const across = event.clientX - drag.x;
      const down = event.clientY - drag.y;
      if (Math.abs(across) + Math.abs(down) > 3) drag.isMoved = true;
      if (!drag.isMoved) return;
      view.x = drag.fromX - across / view.cycleWidth;
      view.y = drag.fromY - down / view.rowHeight;
      view.clamp();
      this.ask();
    } else if (this.panes.some((pane) => pane.view.canvas === event.target)) {
      this.#use(event.target);
      this.#point(event);
    }
  }

  #release(event) {
    const { drag, view } = this;
    this.drag = null;
    if (drag && !drag.isStrip && !drag.isMoved && event.target === view.canvas) {
      this.select(view.rowAt(event.clientY - view.canvas.getBoundingClientRect().top), event.shiftKey);
    }
  }

  // Shows what stands below the pointer.
  #point(event) {
    const { view } = this;
    const tip = $("tip");
    for (const pane of this.panes) pane.view.hover = null;
    tip.hidden = true;
    if (event) {
      const cycle = view.cycleAt(event.offsetX);
      const row = view.rowAt(event.offsetY);
      view.hover = { row, cycle: event.offsetX > view.left ? cycle : -1 };
      if (row >= 0 && view.rowHeight >= 2 && event.offsetX > view.left) this.#showTip(tip, row, cycle, event);
    }
    this.ask();
  }

  #showTip(tip, row, cycle, event) {
    const { trace, view } = this;
    const stage = trace.stages(row).find((one) => one.from <= cycle && cycle < one.to);
    if (!stage) return;
    const about = STAGES[stage.name] ? STAGES[stage.name][1] : "";
    const text = `${stage.name} ${about}: ${stage.from} to ${stage.to - 1}, ${cyclesText(stage.to - stage.from)}`;
    const parts = [element("b", "", view.shown(row)), element("div", "", text)];
    tip.replaceChildren(...parts, ...trace.notes(row).map((note) => element("div", "note", note)));
    tip.hidden = false;
    tip.style.left = `${Math.min(event.clientX + 14, window.innerWidth - tip.offsetWidth - 8)}px`;
    tip.style.top = `${Math.min(event.clientY + 16, window.innerHeight - tip.offsetHeight - 8)}px`;
  }

  #key(event) {
    if (event.target === $("find")) {
      if (event.key === "Enter") this.#step(event.shiftKey ? -1 : 1);
      if (event.key === "Escape") $("find").blur();
      return;
    }
    const action = KEYS[event.key];
    if (!action || event.ctrlKey || event.metaKey || event.altKey) return;
    event.preventDefault();
    action(this);
    this.ask();
  }

  zoomBy(factor) {
    this.#zoom(factor);
  }

  #zoom(factor) {
    const { view } = this;
    const y = view.selected >= 0 ? view.yOf(view.place[view.selected]) : view.height / 3;
    const x = view.selected >= 0 ? view.xOf(view.trace.first[view.selected]) : view.left + view.width / 8;
    const isIn = x > view.left && x < view.width && y > 0 && y < view.height;
    view.zoom(factor, isIn ? x : view.left + view.width / 8, isIn ? y : view.height / 3);
    this.ask();
  }

  #showAll() {
    this.view.showAll();
    this.ask();
  }

  #hide(squashed) {
    const { view } = this;
    const top = view.topRow;
    for (const pane of this.panes) pane.view.hide(squashed);
    let row = top;
    while (row > 0 && view.place[row] < 0) row--;
    if (row >= 0) view.moveTo(Math.max(0, view.place[row]));
    this.ask();
  }

  #useAbi(isWanted) {
    for (const { view } of this.panes) view.namesAbi = isWanted;
    this.panel.show();
    this.ask();
  }

  // Finds all rows by what is written in the field.
  #search() {
    const { view, trace } = this;
    const text = $("find").value.trim().toLowerCase();
    const cycle = /^(?:cycle)?[ :@]\s*(\d+)$/.exec(text);
    const number = /^#\s*(\d+)$/.exec(text);
    this.found = [];
    if (cycle) this.goToCycle(Number(cycle[1]));
    else if (number) this.found = rowsWhere(trace, (row) => trace.number[row] === Number(number[1]));
    else if (text !== "") this.found = rowsWith(view, text);
    for (const pane of this.panes) pane.view.hits = new Set(pane.view === view ? this.found : []);
    const isText = text !== "" && !cycle;
    $("hits").textContent = isText ? `${this.found.length} found` : "";
    this.ask();
  }

  #step(direction) {
    const { found, view } = this;
    if (found.length === 0) return;
    const from = view.selected >= 0 ? view.selected : view.topRow - direction;
    const later = direction > 0 ? found.find((row) => row > from) : found.findLast((row) => row < from);
    const row = later === undefined ? (direction > 0 ? found[0] : found[found.length - 1]) : later;
    this.select(row);
    $("hits").textContent = `${found.indexOf(row) + 1} of ${found.length}`;
  }

  // Goes to the next row with a mark.
  stepMark(mark, direction) {
    const { trace, view } = this;
    const from = view.selected >= 0 ? view.selected : view.topRow;
    for (let row = from + direction; row >= 0 && row < trace.count; row += direction) {
      if (trace.has(row, mark)) return this.select(row);
    }
  }

  stepRow(direction) {
    const { view } = this;
    if (view.selected < 0) return this.select(view.topRow);
    const place = view.place[view.selected] + direction;
    if (place >= 0 && place < view.rows.length) this.select(view.rows[place]);
  }

  // Goes to the time before or after at which the same address was fetched.
  stepAddress(direction) {
    const { trace, view } = this;
    if (view.selected < 0) return;
    const rows = trace.rowsAt(trace.address(view.selected));
    const row = rows[rows.indexOf(view.selected) + direction];
    if (row !== undefined) this.select(row);
  }

  stepBlocker() {
    if (this.view.selected < 0) return;
    const row = this.trace.blocker(this.view.selected);
    if (row >= 0) this.select(row);
  }

  toggle(id) {
    $(id).checked = !$(id).checked;
    $(id).onchange();
  }

  nextArrows() {
    const kinds = ["all", "selected", "none"];
    const next = kinds[(kinds.indexOf(this.view.arrows) + 1) % kinds.length];
    for (const { view } of this.panes) view.arrows = next;
  }

  turnColours() {
    const root = document.documentElement;
    const isDark = matchMedia("(prefers-color-scheme: dark)").matches;
    const shown = root.dataset.theme || (isDark ? "dark" : "light");
    root.dataset.theme = shown === "dark" ? "light" : "dark";
    this.resize();
  }

  // What is in view, as the part of the page's address after #: row, cycle, zoom.
  #writeHash() {
    const { view } = this;
    const parts = [`place=${view.y.toFixed(2)}`, `cycle=${view.x.toFixed(2)}`];
    parts.push(`zoom=${view.cycleWidth.toPrecision(4)}`);
    if (view.selected >= 0) parts.push(`row=${view.selected}`);
    if (view.hidesSquashed) parts.push("hide=1");
    if (view.namesAbi) parts.push("abi=1");
    try {
      history.replaceState(null, "", `#${parts.join("&")}`);
    } catch {
      // a page from a file may not be allowed to
    }
  }

  #readHash() {
    const { view, trace } = this;
    const words = new URLSearchParams(location.hash.slice(1));
    const number = (name) => (words.has(name) && isFinite(words.get(name)) ? Number(words.get(name)) : null);
    for (const id of ["hide", "abi"]) if (words.get(id) === "1") this.toggle(id);
    const zoom = number("zoom");
    if (zoom !== null) view.setZoom(Math.max(1e-6, Math.min(MOST_CYCLE_WIDTH, zoom)));
    view.moveTo(number("place") || 0);
    if (words.has("all")) view.showAll();
    const row = number("row");
    if (row !== null && row >= 0 && row < trace.count) this.select(row);
    if (number("cycle") !== null) view.x = number("cycle");
    if (number("at") !== null) this.goToCycle(number("at"));
    view.clamp();
  }

  standardZoom() {
    const { view } = this;
    const row = view.selected >= 0 ? view.selected : view.topRow;
    view.setZoom(view.usualWidth);
    view.moveTo(Math.max(0, Math.floor(view.place[row] - view.rowsShown / 3)));
    view.reveal(row);
  }
}

const KEYS = {
  "?": () => $("keys").showModal(),
  "/": () => $("find").focus(),
  j: (page) => page.stepRow(1),
  k: (page) => page.stepRow(-1),
  ArrowDown: (page) => page.view.moveTo(page.view.y + 3),
  ArrowUp: (page) => page.view.moveTo(page.view.y - 3),
  PageDown: (page) => page.view.moveTo(page.view.y + page.view.rowsShown * 0.9),
  PageUp: (page) => page.view.moveTo(page.view.y - page.view.rowsShown * 0.9),
  Home: (page) => page.view.moveTo(0),
  End: (page) => page.view.moveTo(page.view.rows.length),
  ArrowLeft: (page) => (page.view.x -= page.view.cyclesShown / 10),
  ArrowRight: (page) => (page.view.x += page.view.cyclesShown / 10),
  "+": (page) => page.zoomBy(1.4),
  "=": (page) => page.zoomBy(1.4),
  "-": (page) => page.zoomBy(1 / 1.4),
  0: (page) => page.view.showAll(),
  1: (page) => page.standardZoom(),
  m: (page) => page.stepMark(MARKS.mispredicted, 1),
  M: (page) => page.stepMark(MARKS.mispredicted, -1),
  d: (page) => page.stepMark(MARKS.dcache, 1),
  D: (page) => page.stepMark(MARKS.dcache, -1),
  "[": (page) => page.stepAddress(-1),
  "]": (page) => page.stepAddress(1),
  p: (page) => page.stepBlocker(),
  a: (page) => page.nextArrows(),
  h: (page) => page.toggle("hide"),
  r: (page) => page.toggle("abi"),
  t: (page) => page.turnColours(),
  Escape: (page) => page.select(-1),
};

function rowsWhere(trace, test) {
  const rows = [];
  for (let row = 0; row < trace.count; row++) if (test(row)) rows.push(row);
  return rows;
}

// The rows whose address, text, note or function has a text.
function rowsWith(view, text) {
  const { trace } = view;
  const isIn = trace.texts.map((one) => one.toLowerCase().includes(text));
  if (view.namesAbi) {
    trace.labels.forEach((label, row) => (isIn[label] ||= view.shown(row).toLowerCase().includes(text)));
  }
  const named = new Map();
  return rowsWhere(trace, (row) => {
    if (isIn[trace.labels[row]] || isIn[trace.noteTexts[row]]) return true;
    const address = trace.address(row);
    if (!named.has(address)) named.set(address, trace.functionAt(address).toLowerCase().includes(text));
    return named.get(address);
  });
}

const page = new Page(JSON.parse($("data").textContent));
