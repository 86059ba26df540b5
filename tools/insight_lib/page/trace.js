"use strict";

// What a trace says of its instructions. An instruction is known by its row: its place in the order of fetch.

const LEFT = 0;
const SQUASHED = 1;
const OPEN = 2;
const MOST_UNDER_WAY = 1024;
const MARKS = { mispredicted: 1, trap: 2, dcache: 4, icache: 8 };

class Trace {
  constructor(data) {
    this.title = data.title;
    this.begin = data.begin;
    this.end = data.end;
    this.count = data.first.length;
    this.texts = data.texts;
    this.number = data.number;
    this.fate = Uint8Array.from(data.fate);
    this.labels = data.label;
    this.noteTexts = data.notes;
    this.stageTexts = data.stages;
    this.functions = data.functions;
    this.first = new Float64Array(this.count);
    this.last = new Float64Array(this.count);
    let cycle = this.begin;
    for (let row = 0; row < this.count; row++) {
      cycle += data.first[row];
      this.first[row] = cycle;
      this.last[row] = data.length[row] < 0 ? this.end : cycle + data.length[row];
    }
    this.producers = data.producers.map((steps, row) => steps.map((step) => row - step));
    this.consumers = this.#turned();
    this.shapes = this.texts.map(() => null);
    const marks = this.texts.map(markOf);
    this.marks = Uint8Array.from(this.noteTexts, (place) => marks[place]);
    this.addresses = this.texts.map(addressIn);
    this.counts = [0, 0, 0];
    for (const fate of this.fate) this.counts[fate]++;
    this.meanSpan = this.#meanSpan();
    this.byAddress = null;
  }

  // The cycles from fetch to leaving, on average.
  #meanSpan() {
    let cycles = 0;
    for (let row = 0; row < this.count; row++) if (this.fate[row] === LEFT) cycles += this.last[row] - this.first[row];
    return cycles / Math.max(1, this.counts[LEFT]);
  }

  #turned() {
    const consumers = new Map();
    this.producers.forEach((rows, row) => {
      for (const producer of rows) {
        if (!consumers.has(producer)) consumers.set(producer, []);
        consumers.get(producer).push(row);
      }
    });
    return consumers;
  }

  // The stages as pairs of lists: their first cycles, from the instruction's first on, and their names.
  shape(row) {
    const place = this.stageTexts[row];
    if (this.shapes[place] === null) {
      const words = this.texts[place].split(" ");
      const shape = { offsets: [], names: [] };
      for (let at = 0; at + 1 < words.length; at += 2) {
        shape.offsets.push(Number(words[at]));
        shape.names.push(words[at + 1]);
      }
      this.shapes[place] = shape;
    }
    return this.shapes[place];
  }

  stages(row) {
    const { offsets, names } = this.shape(row);
    const first = this.first[row];
    return names.map((name, at) => ({
      name,
      from: first + offsets[at],
      to: at + 1 < names.length ? first + offsets[at + 1] : this.last[row],
    }));
  }

  address(row) {
    return this.addresses[this.labels[row]];
  }

  text(row) {
    return this.texts[this.labels[row]];
  }

  notes(row) {
    return this.texts[this.noteTexts[row]].split("; ").filter((note) => note !== "");
  }

  has(row, mark) {
    return (this.marks[row] & mark) !== 0;
  }

  functionAt(address) {
    let low = 0;
    let high = this.functions.length;
    while (low < high) {
      const middle = (low + high) >> 1;
      if (this.functions[middle][0] <= address) low = middle + 1;
      else high = middle;
    }
    if (low === 0 || address < 0) return "";
    const [start, size, name] = this.functions[low - 1];
    return size > 0 && address >= start + size ? "" : name;
  }

  functionOf(row) {
    return this.functionAt(this.address(row));
  }

  // The cycle in which it began to execute, or -1.
  executes(row) {
    const stage = this.stages(row).find((one) => one.name[0] === "X");
    return stage ? stage.from : -1;
  }

  // The cycle from which its value can be used, or -1. In order all but loads hand it on from Execute.
  given(row) {
    const stages = this.stages(row);
    const isEarly = this.hasStage(row, "A") && !this.#isLoad(row);
    const giving = stages.filter((one) => (isEarly ? "X" : "XAM").includes(one.name[0]));
    return giving.length > 0 ? giving[giving.length - 1].to : -1;
  }

  // What it waited for last: an operand's producer, or an older store, which has to be done before a load begins.
  // -1 where there is neither.
  blocker(row) {
    let best = -1;
    for (const producer of this.producers[row]) {
      if (best < 0 || this.given(producer) > this.given(best)) best = producer;
    }
    const begin = this.executes(row);
    if (!this.#isLoad(row) || begin < 0 || !this.hasStage(row, "Q")) return best;
    for (let at = row - 1; at >= 0 && row - at <= MOST_UNDER_WAY; at--) {
      if (this.fate[at] === LEFT && this.last[at] <= this.first[row]) break;
      if (!this.#isStore(at) || this.given(at) > begin) continue;
      if (best < 0 || this.given(at) > this.given(best)) best = at;
    }
    return best;
  }

  hasStage(row, name) {
    return this.shape(row).names.includes(name);
  }

  #isLoad(row) {
    return / l[bhw]u? /.test(this.text(row));
  }

  #isStore(row) {
    return / s[bhw] /.test(this.text(row));
  }

  // What it waited for last, what that waited for last, and so on.
  chain(row, most) {
    const rows = [];
    for (let at = this.blocker(row); at >= 0 && rows.length < most; at = this.blocker(at)) rows.push(at);
    return rows;
  }

  // The older instruction that left last before this one was free to leave, or -1.
  heldBy(row) {
    const done = this.stages(row).find((one) => one.name === "C");
    if (this.fate[row] !== LEFT || !done) return -1;
    let best = -1;
    for (let at = row - 1; at >= 0 && row - at <= MOST_UNDER_WAY; at--) {
      if (this.fate[at] === SQUASHED) continue;
      if (this.last[at] <= done.from) break;
      if (best < 0 || this.given(at) > this.given(best)) best = at;
    }
    return best >= 0 && this.given(best) > this.given(row) ? best : -1;
  }

  // The instruction after which a squashed one was fetched in vain, or -1 if the trace doesn't have it.
  squashedBy(row) {
    if (this.fate[row] !== SQUASHED) return -1;
    const wanted = MARKS.mispredicted | MARKS.trap;
    for (let at = row - 1; at >= 0 && row - at <= MOST_UNDER_WAY; at--) {
      if (!this.has(at, wanted)) continue;
      const cycle = this.has(at, MARKS.trap) ? this.last[at] : this.given(at);
      if (cycle === this.last[row]) return at;
    }
    return -1;
  }

  // How many older instructions were under way when a row was fetched.
  underWay(row) {
    let count = 0;
    for (let at = row - 1; at >= 0 && row - at <= MOST_UNDER_WAY; at--) if (this.last[at] > this.first[row]) count++;
    return count;
  }

  // An older instruction that left in the cycle in which a row was fetched, or -1.
  leftAtFetch(row) {
    for (let at = row - 1; at >= 0 && row - at <= MOST_UNDER_WAY; at--) {
      if (this.fate[at] === LEFT && this.last[at] === this.first[row]) return at;
    }
    return -1;
  }

  // How many a mispredicted or trapped instruction squashed, and the row that was fetched next.
  squashedAfter(row) {
    let next = row + 1;
    while (next < this.count && this.squashedBy(next) === row) next++;
    return { count: next - row - 1, next: next < this.count ? next : -1 };
  }

  // The row of an instruction of the program by its number, or of the next one that left; -1 if there is none.
  rowOfNumber(number) {
    if (this.leftRows === undefined) {
      this.leftRows = [];
      for (let row = 0; row < this.count; row++) if (this.fate[row] !== SQUASHED) this.leftRows.push(row);
    }
    let low = 0;
    let high = this.leftRows.length;
    while (low < high) {
      const middle = (low + high) >> 1;
      if (this.number[this.leftRows[middle]] < number) low = middle + 1;
      else high = middle;
    }
    return low < this.leftRows.length ? this.leftRows[low] : -1;
  }

  // The rows of an address, in order.
  rowsAt(address) {
    if (this.byAddress === null) {
      this.byAddress = new Map();
      for (let row = 0; row < this.count; row++) {
        const at = this.address(row);
        if (!this.byAddress.has(at)) this.byAddress.set(at, []);
        this.byAddress.get(at).push(row);
      }
    }
    return this.byAddress.get(address) || [];
  }

  // The first row that was fetched in a cycle or later.
  rowAtCycle(cycle) {
    let low = 0;
    let high = this.count;
    while (low < high) {
      const middle = (low + high) >> 1;
      if (this.first[middle] < cycle) low = middle + 1;
      else high = middle;
    }
    return Math.min(low, this.count - 1);
  }
}

function markOf(notes) {
  let mark = 0;
  if (notes.includes("mispredicted: to")) mark |= MARKS.mispredicted;
  if (/\btrap \d/.test(notes)) mark |= MARKS.trap;
  if (notes.includes("dcache miss")) mark |= MARKS.dcache;
  if (notes.includes("icache miss")) mark |= MARKS.icache;
  return mark;
}

function addressIn(label) {
  const found = /^([0-9a-f]{8}):/.exec(label);
  return found ? parseInt(found[1], 16) : -1;
}
