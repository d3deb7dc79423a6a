"use strict";
(() => {
  const STAGES = ["F", "D", "E", "M", "W"];
  const LEAST = 12;  // cycles of the closest zoom
  const FIRST = 160;  // cycles that are shown at first, where the window has more
  const SVG = "http://www.w3.org/2000/svg";
  const data = JSON.parse(document.getElementById("data").textContent);
  const section = document.getElementById("timeline");
  const plot = section.querySelector(".plot");
  const cells = section.querySelector(".cells");
  const over = section.querySelector(".over");
  const scroll = section.querySelector(".scroll");
  const readout = section.querySelector(".readout");
  const rowHeight = Number(cells.dataset.row), strip = Number(cells.dataset.strip);
  const height = strip + rowHeight * data.rows.length;
  // Of each thread its issues by their cycles from the window's begin on: the numbers of word and effect.
  const issues = data.rows.map((row) => {
    let cycle = 0;
    return new Map(row.gaps.map((gap, index) => [cycle += gap, index]));
  });
  let left = 0, span = Math.max(1, Math.min(FIRST, data.cycles)), pointed = null;

  const made = (name, attributes, text) => {
    const it = document.createElementNS(SVG, name);
    for (const [key, value] of Object.entries(attributes)) it.setAttribute(key, value);
    if (text !== undefined) it.textContent = text;
    return it;
  };
  const element = (name, text, type) => {
    const it = document.createElement(name);
    if (text !== undefined) it.textContent = text;
    if (type) it.className = type;
    return it;
  };
  const grouped = (number) => number.toLocaleString("en-US", {maximumFractionDigits: 3});
  const width = () => plot.clientWidth || 1;
  const placeOf = (cycle) => (cycle - left) * width() / span;

  function show(newLeft, newSpan) {
    span = Math.min(data.cycles, Math.max(Math.min(LEAST, data.cycles), newSpan));
    left = Math.min(data.cycles - span, Math.max(0, newLeft));
    cells.setAttribute("viewBox", `${left} 0 ${span} ${height}`);
    const room = data.cycles - span;
    scroll.disabled = room <= 0;
    scroll.value = room > 0 ? Math.round(1000 * left / room) : 0;
    draw();
  }

  // What is drawn in pixels, and so isn't stretched: the axis, names of instructions, and the cell that is pointed at.
  function draw() {
    over.replaceChildren(...ticks());
    if (width() / span >= 46) over.append(...names());
    if (pointed === null) return;
    const [row, cycle] = pointed, one = width() / span;
    over.append(made("rect", {class: "band", x: placeOf(cycle), y: 0, width: one, height}));
    over.append(made("rect", {class: "here", x: placeOf(cycle), y: strip + row * rowHeight + 1, width: one, height: rowHeight - 2}));
  }

  function ticks() {
    const found = [], most = width() / 90;
    const step = [1, 2, 5].flatMap((it) => [0, 1, 2, 3, 4].map((power) => it * 10 ** power))
      .sort((a, b) => a - b).find((it) => span / it <= most) || 50000;
    const first = Math.ceil((data.start + left) / step) * step;
    for (let at = first; at < data.start + left + span; at += step) {
      const x = placeOf(at - data.start);
      if (x < 4 || x > width() - 30) continue;
      found.push(made("line", {class: "ticks", x1: x, x2: x, y1: height, y2: height + 5}));
      found.push(made("text", {x, y: height + 18, "text-anchor": x < 30 ? "start" : "middle"}, grouped(at)));
    }
    return found;
  }

  function names() {
    const found = [], one = width() / span, most = Math.floor((one * .9 - 6) / 7.3);
    for (let cycle = Math.floor(left); data.frame.length && cycle < left + span; cycle++) {
      const owner = data.frame[(data.start + cycle) % data.frame.length];
      found.push(made("text", {class: owner === "S" ? "slot" : "slot own", x: placeOf(cycle) + 4, y: 13}, owner));
    }
    issues.forEach((issued, row) => {
      for (let cycle = Math.ceil(left); cycle < left + span; cycle++) {
        const index = issued.get(cycle);
        if (index === undefined) continue;
        const {words, effects} = data.rows[row], [, , text, , kind] = data.words[words[index]];
        const type = `in k-${effects[index].startsWith("trap") ? "trap" : kind}`, y = strip + row * rowHeight + 16;
        found.push(made("text", {class: type, x: placeOf(cycle) + 4, y}, text.split(" ")[0].slice(0, most)));
      }
    });
    return found;
  }

  function showCell(row, cycle) {
    pointed = [row, cycle];
    draw();
    const at = data.start + cycle, issued = issues[row], table = element("table");
    STAGES.forEach((stage, later) => {
      const line = element("tr"), index = issued.get(cycle - later);
      line.append(element("th", stage));
      if (index === undefined) {
        line.append(element("td", "–", "muted"));
      } else {
        const [pc, name, text, source] = data.words[data.rows[row].words[index]];
        const cell = element("td");
        cell.append(element("code", `${pc} ${text}`), ` \u2192 `, element("code", data.rows[row].effects[index]));
        cell.append(element("small", [name, source].filter(Boolean).join(" · ")));
        line.append(cell);
      }
      table.append(line);
    });
    readout.replaceChildren(element("p", headline(row, cycle, at)), table);
  }

  function headline(row, cycle, at) {
    const owner = data.frame.length ? data.frame[at % data.frame.length] : "";
    const slot = owner === "S" ? "; a slot of soft threads" : owner ? `; a slot of ${owner}` : "";
    const who = issues.findIndex((issued) => issued.has(cycle));
    const issuer = who < 0 ? "nobody issues" : `T${data.rows[who].thread} issues`;
    const time = at * data.period;
    const shown = time >= 1000 ? `${grouped(time / 1000)} µs` : `${time} ns`;
    return `Cycle ${grouped(at)}, ${shown}${slot}, ${issuer}. T${data.rows[row].thread} in the five stages:`;
  }

  function cellAt(event) {
    const box = plot.getBoundingClientRect();
    const cycle = Math.floor(left + (event.clientX - box.left) * span / width());
    const row = Math.floor((event.clientY - box.top - strip) / rowHeight);
    const isIn = cycle >= 0 && cycle < data.cycles && row >= 0 && row < data.rows.length;
    return isIn ? [row, cycle] : null;
  }

  function zoom(factor, middle) {
    const isSeen = pointed !== null && pointed[1] >= left && pointed[1] < left + span;
    if (middle === undefined) middle = isSeen ? pointed[1] + 0.5 : left + span / 2;
    const before = span, after = Math.min(data.cycles, Math.max(Math.min(LEAST, data.cycles), span * factor));
    show(middle - (middle - left) * after / before, after);
  }

  const acts = {
    in: () => zoom(1 / 1.6), out: () => zoom(1.6), all: () => show(0, data.cycles),
    left: () => show(left - span / 4, span), right: () => show(left + span / 4, span),
  };
  const keys = {"+": "in", "=": "in", "-": "out", "0": "all", ArrowLeft: "left", ArrowRight: "right"};
  let dragged = null;

  section.querySelectorAll("[data-do]").forEach((it) => it.addEventListener("click", () => acts[it.dataset.do]()));
  scroll.addEventListener("input", () => show((data.cycles - span) * scroll.value / 1000, span));
  plot.addEventListener("keydown", (event) => {
    if (!(event.key in keys) || event.ctrlKey || event.metaKey || event.altKey) return;
    event.preventDefault();
    acts[keys[event.key]]();
  });
  plot.addEventListener("wheel", (event) => {
    const sideways = event.shiftKey ? event.deltaY : event.deltaX;
    if (event.ctrlKey || event.metaKey) {
      zoom(event.deltaY > 0 ? 1.25 : 0.8, left + (event.clientX - plot.getBoundingClientRect().left) * span / width());
    } else if (sideways) {
      show(left + sideways * span / width(), span);
    } else {
      return;
    }
    event.preventDefault();
  }, {passive: false});
  plot.addEventListener("pointerdown", (event) => { dragged = {x: event.clientX, left}; });
  window.addEventListener("pointerup", () => { dragged = null; });
  plot.addEventListener("pointermove", (event) => {
    if (dragged && Math.abs(event.clientX - dragged.x) > 3) {
      show(dragged.left - (event.clientX - dragged.x) * span / width(), span);
      return;
    }
    const cell = cellAt(event);
    if (cell) showCell(...cell);
  });
  plot.addEventListener("click", (event) => {
    const cell = cellAt(event);
    if (cell) showCell(...cell);
  });
  window.addEventListener("resize", () => show(left, span));

  section.querySelector(".controls").hidden = scroll.hidden = false;
  show(0, span);
  const first = issues.findIndex((issued) => issued.size);
  if (first >= 0) showCell(first, Math.min(data.cycles - 1, issues[first].keys().next().value + 2));
})();
