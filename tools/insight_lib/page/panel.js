"use strict";

// The panel beside the picture: what an instruction went through, what it waited for, and what waited for it.

const MOST_LINKS = 12;
const MOST_TOP = 6;

function element(tag, className, ...content) {
  const made = document.createElement(tag);
  if (className) made.className = className;
  made.append(...content);
  return made;
}

function cyclesText(count) {
  return `${count} cycle${count === 1 ? "" : "s"}`;
}

class Panel {
  constructor(place, view, select) {
    this.place = place;
    this.view = view;
    this.other = null; // the view of another trace of the same program
    this.trace = view.trace;
    this.select = select;
  }

  show() {
    const { selected } = this.view;
    this.place.replaceChildren(...(selected < 0 ? this.#summary() : this.#instruction(selected)));
  }

  // An instruction by its address and its text.
  #name(row) {
    return this.view.shown(row).replace(/^([0-9a-f]{8}): \S+ /, "$1 ");
  }

  // An instruction that can be clicked.
  #link(row, note) {
    const link = element("a", this.trace.fate[row] === SQUASHED ? "gone" : "", this.#name(row));
    link.href = "#";
    link.onclick = (event) => {
      event.preventDefault();
      this.select(row);
    };
    return element("div", "link", link, note ? element("span", "dim", ` ${note}`) : "");
  }

  #table(rows) {
    const table = element("table", "");
    for (const cells of rows) table.append(element("tr", "", ...cells.map((cell) => element("td", "", cell))));
    return table;
  }

  #summary() {
    const { trace } = this;
    const cycles = Math.max(1, trace.end - trace.begin);
    const count = (mark) => String(trace.marks.reduce((sum, marks) => sum + ((marks & mark) !== 0 ? 1 : 0), 0));
    const rows = [
      ["cycles", `${trace.begin} to ${trace.end}`],
      ["fetched", String(trace.count)],
      ["left", `${trace.counts[LEFT]} (${(trace.counts[LEFT] / cycles).toFixed(2)} a cycle)`],
      ["squashed", `${trace.counts[SQUASHED]} (${percent(trace.counts[SQUASHED], trace.count)})`],
      ["under way at the end", String(trace.counts[OPEN])],
      ["mispredicted", count(MARKS.mispredicted)],
      ["data cache misses", count(MARKS.dcache)],
      ["instruction cache misses", count(MARKS.icache)],
    ];
    const parts = [element("h2", "", "The trace"), this.#table(rows)];
    parts.push(...this.#top("Most mispredicted", MARKS.mispredicted), ...this.#top("Most data misses", MARKS.dcache));
    const advice = "Click an instruction to see why it took as long as it did. The key ? shows all keys.";
    parts.push(element("p", "dim", advice));
    return parts;
  }

  // The addresses that have a mark most often.
  #top(title, mark) {
    const found = new Map();
    for (let row = 0; row < this.trace.count; row++) {
      if (!this.trace.has(row, mark)) continue;
      const address = this.trace.address(row);
      if (!found.has(address)) found.set(address, { row, count: 0 });
      found.get(address).count++;
    }
    const best = [...found.values()].sort((a, b) => b.count - a.count).slice(0, MOST_TOP);
    if (best.length === 0) return [];
    return [element("h3", "", title), ...best.map((one) => this.#link(one.row, `\u00d7 ${one.count}`))];
  }

  #instruction(row) {
    const { trace, view } = this;
    const name = trace.functionOf(row);
    const parts = [element("h2", trace.fate[row] === SQUASHED ? "gone" : "", this.#name(row))];
    const [, word] = /^[0-9a-f]{8}: (\S+) /.exec(trace.text(row)) || [null, ""];
    const about = [name, word, `number ${trace.number[row]}`, `row ${row}`].filter((text) => text !== "").join(", ");
    parts.push(element("div", "dim", about), this.#stages(row));
    parts.push(...trace.notes(row).map((note) => element("div", "note", note)));
    if (this.other !== null) parts.push(...this.#compare(row));
    if (view.measured >= 0 && view.measured !== row) parts.push(...this.#measure(row));
    parts.push(...this.#reasons(row), ...this.#relations(row), ...this.#history(row));
    return parts;
  }

  #stages(row) {
    const { trace } = this;
    const rows = trace.stages(row).map(({ name, from, to }) => {
      const colour = element("i", "colour");
      colour.style.background = stageColour(name);
      const stage = element("span", "", colour, ` ${name} `, element("span", "dim", STAGES[name][1]));
      return [stage, to - from > 1 ? `${from} to ${to - 1}` : String(from), String(to - from)];
    });
    const ends = ["left", "squashed", "under way at the trace's end"];
    const all = trace.last[row] - trace.first[row];
    rows.push([ends[trace.fate[row]], trace.fate[row] === OPEN ? "" : String(trace.last[row]), String(all)]);
    return this.#table(rows);
  }

  // Sentences that say why it took so long.
  #reasons(row) {
    const { trace } = this;
    const parts = this.#fetch(row);
    const waits = trace.stages(row).find((one) => one.name === "Q" || one.name === "D");
    if (waits && trace.executes(row) >= 0) parts.push(...this.#wait(row, waits));
    const held = trace.heldBy(row);
    if (held >= 0) {
      const done = trace.stages(row).find((one) => one.name === "C");
      parts.push(element("p", "", `Done in cycle ${done.from}, and left in ${trace.last[row]}: it was held up by`));
      parts.push(this.#link(held, `done in ${trace.given(held)}`));
    }
    const by = trace.squashedBy(row);
    if (by >= 0) parts.push(element("p", "", "Fetched in vain, after"), this.#link(by, ""));
    if (trace.has(row, MARKS.mispredicted | MARKS.trap)) parts.push(...this.#squashes(row));
    return parts;
  }

  // Why it was fetched later than in the cycle after the instruction before it.
  #fetch(row) {
    const { trace } = this;
    const late = row > 0 ? trace.first[row] - trace.first[row - 1] : 0;
    if (late < 2) return [];
    const by = trace.squashedBy(row - 1);
    if (by >= 0) return [element("p", "", "Fetched first after what squashed those before it:"), this.#link(by, "")];
    const text = `Fetched ${cyclesText(late)} after the one before it`;
    if (trace.has(row, MARKS.icache)) return [element("p", "", `${text}: it missed the instruction cache.`)];
    const parts = [element("p", "", `${text}, with ${trace.underWay(row)} under way`)];
    const left = trace.leftAtFetch(row);
    if (left >= 0) parts[0].append(", when this one left:");
    return left >= 0 ? [...parts, this.#link(left, "")] : parts;
  }

  #wait(row, waits) {
    const { trace } = this;
    const from = waits.name === "D" ? waits.from + 1 : waits.from;
    const blocker = trace.blocker(row);
    const given = blocker < 0 ? -1 : trace.given(blocker);
    const came = Math.max(from, Math.min(given, waits.to));
    const parts = [];
    if (came > from) {
      const isOperand = trace.producers[row].includes(blocker);
      const what = isOperand ? "for the value of" : "for an older store to be done:";
      parts.push(element("p", "", `Waited ${cyclesText(came - from)} ${what}`));
      parts.push(this.#link(blocker, `${isOperand ? "given" : "done"} in ${given}`));
    }
    if (waits.to > came) {
      const also = came > from ? "Then waited" : "Waited";
      const why = waits.name === "D" ? "for the stage before it" : "for a unit, or for its turn";
      const text = `${also} ${cyclesText(waits.to - came)} with its operands there: ${why}.`;
      parts.push(element("p", "", text));
    }
    return parts;
  }

  #squashes(row) {
    const { trace } = this;
    const { count, next } = trace.squashedAfter(row);
    const parts = [element("p", "", `Squashed ${count} that were fetched after it.`)];
    if (next >= 0) {
      const lost = trace.first[next] - trace.first[row];
      parts.push(element("p", "", `Fetch went on ${cyclesText(lost)} after its own fetch, at`), this.#link(next, ""));
    }
    return parts;
  }

  #relations(row) {
    const { trace } = this;
    const parts = [];
    const producers = trace.producers[row];
    const consumers = trace.consumers.get(row) || [];
    if (producers.length > 0) {
      parts.push(element("h3", "", "Its operands"));
      const when = (one) => (trace.given(one) < 0 ? "" : `given in ${trace.given(one)}`);
      parts.push(...producers.map((one) => this.#link(one, when(one))));
    }
    if (consumers.length > 0) {
      parts.push(element("h3", "", "Who used its value"));
      const shown = consumers.slice(0, MOST_LINKS);
      parts.push(...shown.map((one) => this.#link(one, trace.executes(one) < 0 ? "" : `in ${trace.executes(one)}`)));
      const more = consumers.length - shown.length;
      if (more > 0) parts.push(element("div", "dim", `and ${more} more`));
    }
    return parts;
  }

  // What the same address did all over the trace.
  #history(row) {
    const { trace } = this;
    const rows = trace.rowsAt(trace.address(row));
    const at = rows.indexOf(row);
    const left = rows.filter((one) => trace.fate[one] === LEFT);
    const counts = [`${rows.length} times fetched, ${left.length} left`];
    for (const name of Object.keys(MARKS)) {
      const count = rows.filter((one) => trace.has(one, MARKS[name])).length;
      if (count > 0) counts.push(`${count} ${name === "dcache" || name === "icache" ? `${name} misses` : name}`);
    }
    const spans = left.map((one) => trace.last[one] - trace.first[one]);
    const parts = [element("h3", "", "This address"), element("div", "", counts.join(", "))];
    if (spans.length > 0) {
      const mean = spans.reduce((sum, span) => sum + span, 0) / spans.length;
      const most = spans.reduce((top, span) => Math.max(top, span), 0);
      parts.push(element("div", "", `from fetch to leaving: ${mean.toFixed(1)} cycles on average, at most ${most}`));
    }
    if (at > 0) parts.push(this.#link(rows[at - 1], "before: key ["));
    if (at + 1 < rows.length) parts.push(this.#link(rows[at + 1], "next: key ]"));
    return parts;
  }

  // How long the same instruction took in the other trace.
  #compare(row) {
    const { trace } = this;
    const other = this.other.trace;
    const own = trace.fate[row] === SQUASHED ? -1 : other.rowOfNumber(trace.number[row]);
    if (own < 0 || other.number[own] !== trace.number[row]) return [];
    const times = (one, at) => {
      const begin = one.executes(at);
      return [one.title, begin < 0 ? "" : String(begin - one.first[at]), String(one.last[at] - one.first[at])];
    };
    const head = ["cycles from fetch to", "execution", "leaving"];
    return [element("h3", "", "In both traces"), this.#table([head, times(trace, row), times(other, own)])];
  }

  #measure(row) {
    const { trace } = this;
    const other = this.view.measured;
    const rows = [
      ["instructions", String(row - other)],
      ["cycles from fetch to fetch", String(trace.first[row] - trace.first[other])],
      ["from end to end", String(trace.last[row] - trace.last[other])],
    ];
    return [element("h3", "", "Measured from"), this.#link(other, ""), this.#table(rows)];
  }
}

function percent(part, whole) {
  return `${((100 * part) / Math.max(1, whole)).toFixed(1)} %`;
}
