"use strict";
// Draws the page from the plan that stands in it. All of the plan's text goes into the page as
// text, by textContent and fillText, and never as markup.
(() => {
  const plan = JSON.parse(document.getElementById("plan").textContent);
  const OUTCOMES = ["skipped", "whole", "tested"];
  const total = plan.outcomes.length;
  const group = groupOfChunk();
  const view = { first: 0, last: total };
  const panels = [];
  const overview = { canvas: document.querySelector("#overview canvas") };
  let left = 60;
  let right = 40;
  let colours = {};

  // The group that each chunk is of, and the first chunk of each group.
  function groupOfChunk() {
    const of = [];
    const first = [];
    plan.groups.forEach((count, number) => {
      first.push(of.length);
      for (let i = 0; i < count; i++) of.push(number);
    });
    return { of, first };
  }

  function outcomeOf(chunk) {
    return OUTCOMES["swt".indexOf(plan.outcomes[chunk])];
  }

  function make(parent, tag, text, name) {
    const made = document.createElement(tag);
    if (text !== undefined) made.textContent = text;
    if (name) made.className = name;
    parent.append(made);
    return made;
  }

  function number(value) {
    return value.toLocaleString("en-US");
  }

  function showCounts() {
    const box = document.getElementById("counts");
    const count = (what, text, name = "", more = "") => {
      const card = make(box, "div", undefined, "count " + name);
      make(make(card, "b", text + " "), "small", more);
      make(card, "span", what);
    };
    const chunks = (what, letter, name) => {
      const found = plan.outcomes.split(letter).length - 1;
      count(what, number(found), name, total ? `${((100 * found) / total).toFixed(1)} %` : "");
    };
    count(total === 1 ? "chunk" : "chunks", number(total));
    chunks("skipped", "s", "skipped");
    chunks("taken whole", "w", "whole");
    chunks("tested", "t", "tested");
    count("rows", plan.all_rows);
    count("rows tested", plan.rows_tested);
    count("rows selected", plan.selected);
    count("proofs tried", plan.proofs);
    document.getElementById("where").textContent = plan.where;
    const joined = plan.groups.some((size) => size > 1);
    document.getElementById("of-group").hidden = !joined;
    document.getElementById("group-note").hidden = !joined;
    const some = (test) => plan.columns.some(test);
    const hide = (id, hidden) => (document.getElementById(id).hidden = hidden);
    hide("of-nulls", !some(hasNulls));
    hide("of-unused", !some((column) => column.ranges.some((range) => !range.used)));
    hide("of-open", !some((column) => column.rows.some((_, i) => isOpen(column, i))));
    hide("of-null-alone", !some((column) => column.rows.some((_, i) => isNull(column, i))));
  }

  function hasNulls(column) {
    return column.nulls.some((count) => count > 0);
  }

  function isNull(column, at) {
    return column.nulls[at] === column.rows[at];
  }

  function isOpen(column, at) {
    const scale = column.scales[0];
    return !isNull(column, at) && (scale.low[at] < 0 || scale.high[at] < 0);
  }

  function addPanel(column) {
    const box = make(document.getElementById("columns"), "section", undefined, "panel");
    const head = make(box, "div", undefined, "head");
    make(head, "h2", column.name);
    make(head, "span", column.type, "type");
    const panel = { column, scale: 0 };
    if (column.scales.length > 1) {
      const button = make(make(head, "span", undefined, "buttons"), "button");
      button.type = "button";
      const label = () => (button.textContent = "scale: " + column.scales[panel.scale].name);
      button.addEventListener("click", () => {
        panel.scale = (panel.scale + 1) % column.scales.length;
        label();
        measure();
        paint();
      });
      label();
    } else {
      make(head, "span", "scale: " + column.scales[0].name, "type");
    }
    addChips(box, column);
    const plot = make(box, "div", undefined, "plot");
    panel.canvas = make(plot, "canvas", undefined, "bars");
    panel.canvas.setAttribute("role", "img");
    panel.canvas.setAttribute("aria-label", `bounds of ${column.name}, a bar for each chunk`);
    panel.mark = make(plot, "div", undefined, "mark");
    panel.chosen = make(plot, "div", undefined, "chosen");
    panel.mark.hidden = panel.chosen.hidden = true;
    listen(panel);
    panels.push(panel);
  }

  function addChips(box, column) {
    const chips = make(box, "p", undefined, "chips");
    const shown = [...new Map(column.ranges.map((range) => [range.text, range])).values()];
    const most = 12;
    for (const range of shown.slice(0, most))
      make(chips, "span", range.text, "chip" + (range.used ? "" : " unused"));
    if (shown.length > most) make(chips, "span", `and ${shown.length - most} more`, "chip plain");
    if (!shown.length)
      make(chips, "span", "compared with no value: no range to show", "chip plain");
  }

  // ---- drawing

  function readColours() {
    const style = getComputedStyle(document.documentElement);
    colours = {};
    for (const name of [...OUTCOMES, "ink", "faint", "line", "range", "band", "paper"])
      colours[name] = style.getPropertyValue("--" + name).trim();
  }

  // A canvas of as many dots as the screen has in its place, cleared.
  function cleared(canvas) {
    const ratio = window.devicePixelRatio || 1;
    const width = canvas.clientWidth;
    const height = canvas.clientHeight;
    canvas.width = Math.round(width * ratio);
    canvas.height = Math.round(height * ratio);
    const pen = canvas.getContext("2d");
    pen.setTransform(ratio, 0, 0, ratio, 0, 0);
    pen.font = "12px system-ui, 'DejaVu Sans', sans-serif";
    pen.textBaseline = "middle";
    return { pen, width, height, dot: 1 / ratio };
  }

  // Room for labels at both sides, alike in all panels so that a chunk stands in one line.
  function measure() {
    const { pen } = cleared(overview.canvas);
    const widest = (texts) => Math.max(0, ...texts.map((text) => pen.measureText(text).width));
    const scales = panels.map((panel) => panel.column.scales[panel.scale]);
    const most = Math.max(60, overview.canvas.clientWidth * 0.17);
    left = Math.min(most, widest(scales.flatMap((s) => s.ticks.map((t) => t.text))) + 14);
    left = Math.ceil(Math.max(left, 46));
    right = Math.min(most, widest(scales.flatMap((s) => s.ends.map((e) => e.text))) + 16);
    right = Math.ceil(Math.max(right, 16));
  }

  function fitted(pen, text, width) {
    if (pen.measureText(text).width <= width) return text;
    let kept = [...text];
    while (kept.length && pen.measureText(kept.join("") + "…").width > width) kept.pop();
    return kept.join("") + "…";
  }

  function frame(panel) {
    const area = cleared(panel.canvas);
    area.x0 = left;
    area.x1 = area.width - right;
    area.top = 8;
    area.bottom = area.height - (hasNulls(panel.column) ? 44 : 32);
    area.of = (chunk) =>
      area.x0 + ((chunk - view.first) / (view.last - view.first)) * (area.x1 - area.x0);
    area.at = (place) => area.bottom - 4 - (place / plan.steps) * (area.bottom - area.top - 8);
    return area;
  }

  function drawAxes(area, scale) {
    const { pen } = area;
    pen.textAlign = "right";
    pen.lineWidth = 1;
    for (const tick of scale.ticks) {
      pen.fillStyle = colours.line;
      pen.fillRect(area.x0, Math.round(area.at(tick.at)), area.x1 - area.x0, 1);
      pen.fillStyle = colours.faint;
      pen.fillText(fitted(pen, tick.text, left - 12), area.x0 - 8, area.at(tick.at));
    }
    drawChunkNumbers(area);
  }

  function drawChunkNumbers(area) {
    const { pen } = area;
    const room = Math.max(2, Math.floor((area.x1 - area.x0) / 90));
    const rough = (view.last - view.first) / room;
    const power = 10 ** Math.floor(Math.log10(Math.max(1, rough)));
    const step = [1, 2, 5, 10].map((n) => n * power).find((n) => n >= rough) || 1;
    pen.textAlign = "center";
    pen.fillStyle = colours.faint;
    for (let i = Math.ceil(view.first / step) * step; i < view.last; i += step)
      pen.fillText(number(i), (area.of(i) + area.of(i + 1)) / 2, area.height - 8);
  }

  function drawRanges(area, panel, scale) {
    const { pen } = area;
    panel.column.ranges.forEach((range, i) => {
      if (range.nulls !== null || range.open) return;
      const [low, high] = scale.ranges[i];
      const top = high === null ? area.top : area.at(high);
      const height = Math.max((low === null ? area.bottom : area.at(low)) - top, 2);
      if (range.used) {
        pen.fillStyle = colours.band;
        pen.fillRect(area.x0, top, area.x1 - area.x0, height);
      }
    });
    for (const end of scale.ends) {
      pen.strokeStyle = colours.range;
      pen.lineWidth = 1.5;
      pen.setLineDash(end.used ? [] : [5, 4]);
      pen.beginPath();
      pen.moveTo(area.x0, area.at(end.at));
      pen.lineTo(area.x1 + 4, area.at(end.at));
      pen.stroke();
    }
    pen.setLineDash([]);
    drawEnds(area, scale.ends);
  }

  // The values at which ranges end, beside their lines: moved apart where they would overlap, and
  // left out where there is no room for all.
  function drawEnds(area, ends) {
    const { pen } = area;
    const most = Math.floor((area.bottom - area.top) / 15);
    const places = [...ends].sort((one, other) => other.at - one.at);
    const kept = places.length > most ? places.filter((_, i) =>
      i % Math.ceil(places.length / most) === 0) : places;
    let last = -Infinity;
    const heights = kept.map((end) => (last = Math.max(last + 15, area.at(end.at))));
    const over = last - area.bottom;
    for (let i = heights.length - 1, most = area.bottom; over > 0 && i >= 0; i--, most -= 15)
      heights[i] = Math.min(heights[i], most);
    pen.textAlign = "left";
    pen.fillStyle = colours.range;
    kept.forEach((end, i) =>
      pen.fillText(fitted(pen, end.text, right - 10), area.x1 + 7, heights[i]));
  }

  // One bar a chunk in the window, the tested ones on top, so that none of them is hidden where
  // several chunks share a dot. The counts are left on the canvas for whoever reads the page.
  function drawBars(area, panel, scale) {
    const counts = { skipped: 0, whole: 0, tested: 0 };
    const pitch = (area.x1 - area.x0) / (view.last - view.first);
    const gap = pitch > 4 ? Math.min(6, pitch * 0.2) : 0;
    OUTCOMES.forEach((outcome) => {
      for (let chunk = view.first; chunk < view.last; chunk++) {
        if (outcomeOf(chunk) !== outcome) continue;
        const x = area.of(chunk) + gap / 2;
        drawBar(area, panel, scale, chunk, x, Math.max(pitch - gap, area.dot));
        counts[outcome]++;
      }
    });
    area.pen.globalAlpha = 1;
    Object.assign(panel.canvas.dataset, counts);
    panel.canvas.dataset.bars = counts.skipped + counts.whole + counts.tested;
  }

  function drawBar(area, panel, scale, chunk, x, width) {
    const { pen } = area;
    const at = group.of[chunk];
    const [low, high] = [scale.low[at], scale.high[at]];
    pen.fillStyle = colours[outcomeOf(chunk)];
    pen.globalAlpha = plan.groups[at] > 1 ? 0.5 : 1;
    if (low >= 0 && high >= 0) {
      const height = Math.max(area.at(low) - area.at(high), 3);
      const middle = (area.at(low) + area.at(high)) / 2;
      pen.fillRect(x, middle - height / 2, width, height);
      return;
    }
    if (isNull(panel.column, at)) {
      pen.fillRect(x, area.bottom - 3, width, 3);
      return;
    }
    const top = high >= 0 ? area.at(high) : area.top;
    const bottom = low >= 0 ? area.at(low) : area.bottom;
    for (const y of [top, bottom]) pen.fillRect(x, y - 1, width, 2);
    pen.globalAlpha = 0.25;
    pen.fillRect(x, top, width, bottom - top);
  }

  // Chunks from `first` up to `last` by the dots that they share: a cell a chunk where there is
  // room for it, else a cell a dot.
  function cells(area, first, last) {
    const wide = area.x1 - area.x0;
    const count = Math.min(Math.max(1, Math.floor(wide / area.dot)), last - first);
    return Array.from({ length: count }, (_, i) => ({
      first: first + Math.floor((i * (last - first)) / count),
      last: first + Math.floor(((i + 1) * (last - first)) / count),
      x: area.x0 + (wide * i) / count,
      width: wide / count,
    }));
  }

  function drawNulls(area, panel) {
    if (!hasNulls(panel.column)) return;
    const { pen } = area;
    const y = area.bottom + 10;
    pen.textAlign = "right";
    pen.fillStyle = colours.faint;
    pen.fillText("nulls", area.x0 - 8, y + 5);
    pen.strokeStyle = colours.line;
    pen.strokeRect(area.x0 - 0.5, y - 0.5, area.x1 - area.x0 + 1, 11);
    pen.fillStyle = colours.ink;
    for (const cell of cells(area, view.first, view.last)) {
      let [nulls, rows] = [0, 0];
      for (let chunk = cell.first; chunk < cell.last; chunk++) {
        nulls += panel.column.nulls[group.of[chunk]];
        rows += panel.column.rows[group.of[chunk]];
      }
      pen.globalAlpha = nulls ? 0.15 + (0.7 * nulls) / rows : 0;
      pen.fillRect(cell.x, y, cell.width, 10);
    }
    pen.globalAlpha = 1;
  }

  function drawGroups(area) {
    const { pen } = area;
    pen.fillStyle = colours.faint;
    plan.groups.forEach((size, i) => {
      const first = Math.max(group.first[i], view.first);
      const last = Math.min(group.first[i] + size, view.last);
      if (size < 2 || first >= last) return;
      const [x, end] = [area.of(first) + 1, area.of(last) - 1];
      if (end - x < 1) return;
      pen.fillRect(x, area.bottom + 4, end - x, 1);
      if (end - x < 5) return;
      pen.fillRect(x, area.bottom, 1, 5);
      pen.fillRect(end - 1, area.bottom, 1, 5);
    });
  }

  function drawPanel(panel) {
    const scale = panel.column.scales[panel.scale];
    const area = frame(panel);
    panel.area = area;
    drawAxes(area, scale);
    drawBars(area, panel, scale);
    drawRanges(area, panel, scale);
    drawNulls(area, panel);
    drawGroups(area);
  }

  // All chunks in one strip. A dot that several chunks share is cut by how many of them had each
  // outcome.
  function drawOverview() {
    const area = cleared(overview.canvas);
    const { pen } = area;
    area.x0 = left;
    area.x1 = area.width - right;
    const [top, height] = [2, 34];
    for (const cell of cells(area, 0, total)) {
      const width = cell.width - (total < 200 ? 1 : 0);
      let y = top + height;
      OUTCOMES.forEach((outcome, n) => {
        const part = plan.outcomes.slice(cell.first, cell.last).split("swt"[n]).length - 1;
        const tall = (height * part) / (cell.last - cell.first);
        pen.fillStyle = colours[outcome];
        pen.fillRect(cell.x, y - tall, width, tall);
        y -= tall;
      });
    }
    overview.area = { ...area, of: (chunk) => area.x0 + (chunk / total) * (area.x1 - area.x0) };
    drawWindow(overview.area, top, height);
  }

  function drawWindow(area, top, height) {
    const { pen } = area;
    const [x, end] = [area.of(view.first), area.of(view.last)];
    if (view.last - view.first < total) {
      pen.fillStyle = colours.paper;
      pen.globalAlpha = 0.6;
      pen.fillRect(area.x0, top, x - area.x0, height);
      pen.fillRect(end, top, area.x1 - end, height);
      pen.globalAlpha = 1;
    }
    pen.strokeStyle = colours.range;
    pen.lineWidth = 1.5;
    pen.strokeRect(x, top - 1, Math.max(end - x, 2), height + 2);
    pen.fillStyle = colours.faint;
    pen.textAlign = "left";
    pen.fillText("0", area.x0, area.height - 9);
    pen.textAlign = "right";
    if (total > 1) pen.fillText(number(total - 1), area.x1, area.height - 9);
  }

  function paint() {
    readColours();
    drawOverview();
    panels.forEach(drawPanel);
    const count = view.last - view.first;
    const dense = panels.length && count > panels[0].area.x1 - panels[0].area.x0;
    document.getElementById("window").textContent =
      (count === total ? `${number(total)} shown` : `chunks ${number(view.first)} to ` +
        `${number(view.last - 1)} of ${number(total)} shown`) +
      (dense ? "; several share a dot, tested ones in front" : "");
    overview.canvas.setAttribute("aria-label", document.getElementById("window").textContent);
  }

  // ---- the window, and the chunk under the pointer

  function show(first, last) {
    const count = Math.max(1, Math.min(total, Math.round(last - first)));
    view.first = Math.max(0, Math.min(total - count, Math.round(first)));
    view.last = view.first + count;
    paint();
  }

  function zoom(how) {
    const count = view.last - view.first;
    const step = Math.max(1, Math.round(count / 3));
    if (how === "all") show(0, total);
    if (how === "left") show(view.first - step, view.last - step);
    if (how === "right") show(view.first + step, view.last + step);
    if (how === "in") show(view.first + count / 4, view.last - count / 4);
    if (how === "out") show(view.first - count / 2, view.last + count / 2);
  }

  function chunkAt(area, x, first, last) {
    const part = (x - area.x0) / (area.x1 - area.x0);
    return Math.max(first, Math.min(last - 1, first + Math.floor(part * (last - first))));
  }

  function listen(panel) {
    const canvas = panel.canvas;
    const chunk = (event) => chunkAt(panel.area, event.offsetX, view.first, view.last);
    let from = null;
    canvas.addEventListener("pointerdown", (event) => (from = event.offsetX));
    canvas.addEventListener("pointermove", (event) => {
      point(panel, chunk(event), event);
      const moved = from !== null && Math.abs(event.offsetX - from) > 4;
      panel.chosen.hidden = !moved;
      if (!moved) return;
      panel.chosen.style.left = Math.min(from, event.offsetX) + "px";
      panel.chosen.style.width = Math.abs(event.offsetX - from) + "px";
    });
    canvas.addEventListener("pointerup", (event) => {
      if (!panel.chosen.hidden && from !== null) {
        const ends = [from, event.offsetX].sort((a, b) => a - b);
        const [first, last] = ends.map((x) => chunkAt(panel.area, x, view.first, view.last));
        show(first, last + 1);
      }
      from = null;
      panel.chosen.hidden = true;
    });
    canvas.addEventListener("dblclick", () => zoom("all"));
    canvas.addEventListener("pointerleave", () => {
      from = null;
      unpoint();
    });
  }

  function point(panel, chunk, event) {
    const tip = document.getElementById("tip");
    tip.textContent = describe(panel.column, chunk);
    tip.hidden = false;
    const wide = tip.offsetWidth;
    tip.style.left = Math.min(event.clientX + 14, window.innerWidth - wide - 8) + "px";
    tip.style.top = event.clientY + 16 + "px";
    for (const other of panels) {
      other.mark.hidden = false;
      other.mark.style.left = (other.area.of(chunk) + other.area.of(chunk + 1)) / 2 + "px";
    }
  }

  function unpoint() {
    document.getElementById("tip").hidden = true;
    for (const panel of panels) panel.mark.hidden = panel.chosen.hidden = true;
  }

  function describe(column, chunk) {
    const at = group.of[chunk];
    const size = plan.groups[at];
    const first = group.first[at];
    const lines = [
      `chunk ${number(chunk)}, rows: ${number(plan.rows[chunk])}, ` +
        { skipped: "skipped", whole: "taken whole", tested: "tested" }[outcomeOf(chunk)],
      `${column.name}: ${column.said[at]}`,
      `nulls: ${number(column.nulls[at])} of ${number(column.rows[at])}`,
    ];
    if (size > 1)
      lines.push(`bounds and nulls are of the group of chunks ${number(first)} to ` +
        number(first + size - 1));
    return lines.join("\n");
  }

  function listenToAll() {
    for (const button of document.querySelectorAll("[data-zoom]"))
      button.addEventListener("click", () => zoom(button.dataset.zoom));
    const move = (event) => {
      if (!event.buttons) return;
      const half = (view.last - view.first) / 2;
      const chunk = chunkAt(overview.area, event.offsetX, 0, total);
      if (view.last - view.first < total) show(chunk - half, chunk + half);
    };
    overview.canvas.addEventListener("pointerdown", move);
    overview.canvas.addEventListener("pointermove", move);
    window.addEventListener("resize", () => (measure(), paint()));
    matchMedia("(prefers-color-scheme: dark)").addEventListener("change", paint);
  }

  showCounts();
  if (total) {
    plan.columns.forEach(addPanel);
    measure();
    listenToAll();
    paint();
  } else {
    document.getElementById("overview").hidden = true;
  }
  document.body.dataset.ready = "true";
})();
