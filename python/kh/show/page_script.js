"use strict";
// Links the parts of a page: a state shows its circles on the drawing and the edges out of it, a cell the states whose generators stand
// there, a crossing its sign and smoothings. What is chosen stands behind # in the page's address. Without this script the same is in
// lists, and the circles of a state are shown by its address alone.
(() => {
  const SVG = "http://www.w3.org/2000/svg";
  const find = (selector, from = document) => from.querySelector(selector);
  const all = (selector, from = document) => Array.from(from.querySelectorAll(selector));
  document.documentElement.classList.add("js");
  const drawing = find("#drawing");
  if (!drawing) return;
  const data = JSON.parse(find("#data").textContent);
  const count = data.crossings.length;
  const told = find("#told"), shown = find("#shown"), marks = find("#marks"), choices = find("#choices");
  const panel = find("#cell");
  const NOTHING = told.innerHTML;

  const signed = (value) => String(value).replace("-", "\u2212");
  const counted = (number, thing) => `${number} ${thing}${number === 1 ? "" : "s"}`;

  // The places of the arcs at a crossing that a smoothing joins.
  const joins = (bit) => (bit === "1" ? [[0, 3], [1, 2]] : [[0, 1], [2, 3]]);

  // The circles of a state, each a list of arcs, by their least arcs.
  function circlesOf(bits) {
    const least = [];
    for (let arc = 0; arc <= 2 * count + data.loops; arc++) least.push(arc);
    const root = (arc) => (least[arc] === arc ? arc : root(least[arc]));
    data.crossings.forEach((arcs, at) => joins(bits[at]).forEach(([one, other]) => {
      const [low, high] = [root(arcs[one]), root(arcs[other])].sort((a, b) => a - b);
      least[high] = low;
    }));
    const found = new Map();
    for (let arc = 1; arc < least.length; arc++) found.set(root(arc), [...(found.get(root(arc)) || []), arc]);
    return Array.from(found.values());
  }

  const changed = (bits, at) => bits.slice(0, at) + (bits[at] === "1" ? "0" : "1") + bits.slice(at + 1);
  const ones = (bits) => bits.split("1").length - 1;

  function element(name, parent, attributes) {
    const made = document.createElementNS(SVG, name);
    for (const key in attributes) made.setAttribute(key, attributes[key]);
    parent.append(made);
    return made;
  }

  // Draws the circles of a state over the strands.
  function drawState(bits) {
    circlesOf(bits).forEach((circle, number) => {
      const group = element("g", shown, { class: `circle colour${number % data.colours}` });
      circle.forEach((arc) => element("use", group, { href: `#arm-${arc}` }));
      data.crossings.forEach((arcs, at) => joins(bits[at]).forEach(([one, other]) => {
        if (circle.includes(arcs[one])) element("use", group, { href: `#turn-${at + 1}-${one}${other}` });
      }));
    });
    drawing.classList.add("dim");
  }

  // The generators of a state by their quantum degrees, from the least.
  function generatorsOf(bits, circles) {
    const found = [];
    for (let minuses = circles, many = 1; minuses >= 0; many = (many * minuses) / (circles - minuses + 1), minuses--) {
      found.push(`${many} at\u00a0${signed(circles - 2 * minuses + ones(bits) + data.plus - 2 * data.minus)}`);
    }
    return found.join(", ");
  }

  const stateLink = (bits) => `<a href="#state-${bits}">${bits || "the one state"}</a>`;

  function edgesOf(bits) {
    const before = circlesOf(bits).length, found = [];
    for (let at = 0; at < count; at++) {
      if (bits[at] === "1") continue;
      const head = changed(bits, at);
      found.push(`${at + 1}: ${circlesOf(head).length < before ? "merge" : "split"} to ${stateLink(head)}`);
    }
    return found.join(", ") || "none";
  }

  function showState(bits) {
    const circles = circlesOf(bits);
    drawState(bits);
    const sets = circles.map((circle, number) => `<span class="colour${number % data.colours}">{${circle.join(",")}}</span>`);
    told.innerHTML = `<h3>State ${bits || "without choices"}</h3><p>${counted(circles.length, "circle")}: ${sets.join(" ")}</p>
      <p>i = ${signed(ones(bits) - data.minus)}; generators at j: ${generatorsOf(bits, circles.length)}</p>
      <p>Edges out of it, by crossing: ${edgesOf(bits)}</p>`;
    all(".cube").forEach((cube) => cube.classList.add("one"));
    all(`.edge[data-tail="${bits}"]`).forEach((edge) => edge.classList.add("out"));
    all(`.state[data-state="${bits}"]`).forEach((state) => state.classList.add("on"));
    all(".choice", choices).forEach((button, at) => choose(button, at, bits[at]));
  }

  function showCell(name) {
    const cell = document.getElementById(name);
    const head = `<h3>${find("dt", cell).innerHTML}</h3>`, work = find(".work", cell);
    told.innerHTML = head + all(".brief", cell).map((it) => it.outerHTML).join("");
    panel.hidden = !work;
    panel.innerHTML = work ? head + work.innerHTML : "";
    if (work) told.innerHTML += '<p><a href="#cell">Its matrices and ranks</a></p>';
    all(`.grid a[href="#${name}"]`).forEach((link) => link.classList.add("on"));
    const states = (cell.dataset.states || "none").split(" ");
    all(".cube .state").forEach((state) => state.classList.toggle("has", states.includes(state.dataset.state)));
  }

  function showCrossing(name) {
    const cells = all("th, td", document.getElementById(name));
    told.innerHTML = `<h3>Crossing ${cells[0].innerHTML}</h3><p>${cells[1].innerHTML}, ${cells[2].innerHTML}</p>
      <p>0-smoothing: ${cells[3].innerHTML}</p><p>1-smoothing: ${cells[4].innerHTML}</p>`;
    all(`.target[href="#${name}"]`).forEach((link) => link.classList.add("on"));
  }

  // Shows what this name stands for, and nothing else.
  function show(name) {
    shown.replaceChildren();
    panel.hidden = true;
    panel.replaceChildren();
    drawing.classList.remove("dim");
    all(".on, .out, .one, .has").forEach((it) => it.classList.remove("on", "out", "one", "has"));
    all(".choice", choices).forEach((button, at) => choose(button, at, null));
    const state = /^state-([01]*)$/.exec(name);
    const isShown = state ? state[1].length === count : /^(cell_|crossing-)/.test(name) && document.getElementById(name);
    find("#chosen").classList.toggle("active", Boolean(isShown));
    find(".small").classList.toggle("dim", Boolean(isShown && state));
    if (!isShown) told.innerHTML = NOTHING;
    else if (state) showState(state[1]);
    else if (name.startsWith("cell_")) showCell(name);
    else showCrossing(name);
    return Boolean(isShown);
  }

  // Leads to a part of the page, while what is chosen stays so, and covers nothing of it on a small screen.
  function lead(part) {
    find("#chosen").classList.remove("active");
    part.tabIndex = -1;
    part.scrollIntoView();
    part.focus({ preventScroll: true });
  }

  const chosen = () => location.hash.slice(1);
  function go(name) {
    if (show(name)) history.pushState(null, "", `#${name}`);
  }

  // A button for each crossing, which changes its smoothing.
  function choose(button, at, bit) {
    button.textContent = bit === null ? `${at + 1}` : `${at + 1}: ${bit}`;
    button.setAttribute("aria-pressed", String(bit === "1"));
    button.setAttribute("aria-label", bit === null ? `1-smoothing of crossing ${at + 1}` : `crossing ${at + 1}, ${bit}-smoothing`);
  }

  function makeChoices() {
    if (!count) return;
    const label = document.createElement("span");
    label.textContent = "Smoothings:";
    choices.append(label);
    const zero = "0".repeat(count);
    addButton("all 0", () => go(`state-${zero}`));
    for (let at = 0; at < count; at++) {
      addButton("", () => {
        const state = /^state-([01]*)$/.exec(chosen());
        go(`state-${changed(state && state[1].length === count ? state[1] : zero, at)}`);
      }).classList.add("choice");
    }
    addButton("uncut", close).classList.add("none");
  }

  function addButton(text, act) {
    const button = document.createElement("button");
    button.type = "button";
    button.textContent = text;
    button.addEventListener("click", act);
    choices.append(button);
    return button;
  }

  function close() {
    history.pushState(null, "", location.pathname + location.search);
    show("");
  }

  // A small copy of the drawing beside what is told, for small screens, and what closes it there.
  function makeSmall() {
    const small = element("svg", find("#chosen"), { class: "small", viewBox: drawing.getAttribute("viewBox"), "aria-hidden": "true" });
    ["#strands", "#shown"].forEach((href) => element("use", small, { href }));
    const button = document.createElement("button");
    button.type = "button";
    button.className = "close";
    button.textContent = "close";
    button.addEventListener("click", close);
    find("#chosen").append(button);
  }

  let waiting;

  // Marks the arcs and crossings of a move on the drawing, and shows in its frame what the move would make, where a server answers.
  function mark(move) {
    marks.replaceChildren();
    // (what is no longer waited for is not to be made)
    find("#preview image")?.setAttribute("href", "data:,");
    find("#preview").replaceChildren();
    clearTimeout(waiting);
    if (!move) return;
    const { arcs = "", crossings = "", preview } = move.dataset;
    arcs.split(" ").filter(Boolean).forEach((arc) => element("use", marks, { href: `#arc-${arc}`, class: "mark" }));
    crossings.split(" ").filter(Boolean).forEach((crossing) => {
      const circle = find(`.target[href="#crossing-${crossing}"] circle`);
      element("circle", marks, { class: "mark thin", cx: circle.getAttribute("cx"), cy: circle.getAttribute("cy"), r: 17 });
    });
    if (preview) waiting = setTimeout(() => showPreview(preview), 250);
  }

  function showPreview(href) {
    const [x, y, width, height] = drawing.getAttribute("viewBox").split(" ");
    element("image", find("#preview"), { x, y, width, height, href });
  }

  // A mark of a move on the drawing presses the button of that move.
  function makeMove(mark) {
    const button = all("button[name=line]").find((it) => it.value === mark.dataset.line);
    if (button) button.click();
  }

  // The points of a line at even distances, by its lengths.
  function spaced(points, count) {
    const far = [0];
    points.slice(1).forEach(([x, y], at) => far.push(far[at] + Math.hypot(x - points[at][0], y - points[at][1])));
    let at = 0;
    return Array.from({ length: count }, (_, number) => {
      const wanted = (far[far.length - 1] * number) / (count - 1);
      while (at < points.length - 2 && far[at + 1] < wanted) at++;
      const part = far[at + 1] > far[at] ? (wanted - far[at]) / (far[at + 1] - far[at]) : 0;
      return [0, 1].map((side) => points[at][side] + part * (points[at + 1][side] - points[at][side]));
    });
  }

  // The strands go over from where they lay before the move into where they are, in half a second.
  function goOver() {
    const strands = all("#strands [data-from]").map((path) => {
      const from = path.dataset.from.split(" ").map((it) => it.split(",").map(Number));
      const count = 2 * from.length, length = path.getTotalLength();
      const to = Array.from({ length: count }, (_, at) => path.getPointAtLength((length * at) / (count - 1))).map((it) => [it.x, it.y]);
      return { path, from: spaced(from, count), to, whole: path.getAttribute("d") };
    });
    if (!strands.length || matchMedia("(prefers-reduced-motion: reduce)").matches) return;
    const begun = performance.now();
    drawing.classList.add("moving");
    const step = () => {
      const part = Math.min(1, Math.max(0, (performance.now() - begun) / 500)), eased = part * part * (3 - 2 * part);
      strands.forEach(({ path, from, to, whole }) => {
        const points = to.map(([x, y], at) => `${from[at][0] + eased * (x - from[at][0])} ${from[at][1] + eased * (y - from[at][1])}`);
        path.setAttribute("d", part < 1 ? `M${points.join("L")}` : whole);
      });
      if (part < 1) requestAnimationFrame(step);
      else drawing.classList.remove("moving");
    };
    step();
  }

  document.addEventListener("click", (event) => {
    const link = event.target.closest('a[href^="#"]');
    if (!link || event.ctrlKey || event.metaKey || event.shiftKey) return;
    const name = link.getAttribute("href").slice(1);
    event.preventDefault();
    if (/^(state-|cell_|crossing-)/.test(name)) go(name);
    else lead(document.getElementById(name));
  });
  for (const [begun, ended] of [["mouseover", "mouseout"], ["focusin", "focusout"]]) {
    document.addEventListener(begun, (event) => mark(event.target.closest("[data-arcs], [data-crossings]")));
    document.addEventListener(ended, () => mark(null));
  }
  all(".move").forEach((it) => it.addEventListener("click", () => makeMove(it)));
  document.addEventListener("keydown", (event) => {
    const pressed = event.key === "Enter" || event.key === " " ? event.target.closest(".move") : null;
    if (pressed) {
      event.preventDefault();
      makeMove(pressed);
    }
    if (event.key === "Escape" && chosen()) close();
  });
  window.addEventListener("popstate", () => show(chosen()));
  window.addEventListener("hashchange", () => show(chosen()));
  all(".state-name").forEach((name) => (name.outerHTML = stateLink(name.textContent)));
  makeChoices();
  makeSmall();
  show(chosen());
  goOver();
})();
